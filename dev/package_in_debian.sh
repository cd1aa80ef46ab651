#!/usr/bin/env bash
# Installs the latest package of dist/ in a fresh root of a Debian release, where there is no toolchain, runs the README's
# sessions there, and takes it out again: nothing of it is left. usage: package_in_debian.sh bookworm|trixie (as root, with debootstrap and Debian's mirror)
set -euo pipefail
cd "$(dirname "$0")/.."
release=$1
root=$(mktemp -d)
trap 'rm -rf "$root"' EXIT
debootstrap --variant=minbase "$release" "$root" > "$root.log" 2>&1 || { tail "$root.log"; exit 1; }
rm "$root.log"
cp "$(ls -v dist/mqroute_*_amd64.deb | tail -n 1)" "$root/root/mqroute.deb"
cp tests/readme.py tests/faults.py "$root/root"
cp /etc/resolv.conf "$root/etc"
inside() {
    chroot "$root" env -i PATH=/usr/sbin:/usr/bin:/sbin:/bin HOME=/root LC_ALL=C.UTF-8 DEBIAN_FRONTEND=noninteractive "$@"
}
install() { # PACKAGE..
    inside apt-get install -y -qq --no-install-recommends "$@" > "$root/root/log" 2>&1 || { tail "$root/root/log"; exit 1; }
}
install /root/mqroute.deb
inside bash -c 'cd /usr/share/doc/mqroute/examples/new-access-list && mqroute --acl-file current.acl script.jsonl | tail -2'
install python3 jq
inside python3 /root/readme.py --installed /
inside apt-get purge -y -qq mqroute > "$root/root/log" 2>&1 || { tail "$root/root/log"; exit 1; }
left=$(find "$root/usr" "$root/etc" "$root/var/lib" -path '*mqroute*' -print)
[ -z "$left" ] || { echo "left behind: $left"; exit 1; }
