#!/usr/bin/env bash
# Makes the package, and uses it as somebody would who has no toolchain: unpacked into an empty folder, its programs and
# tools answer the README's sessions, and its pages have what they link to below docs and examples. The same commit gives
# the same bytes. Later commits make later versions. Installed, upgraded and taken out again beside tools that root ran, it
# leaves nothing behind.
set -euo pipefail
cd "$(dirname "$0")/.."
if ! command -v dpkg-deb > /dev/null; then
    echo "package: there is no dpkg-deb: not tried"
    exit 0
fi
scratch=$(mktemp -d)
trap 'rm -rf "$scratch"' EXIT
export PYTHONDONTWRITEBYTECODE=1 # but where it is what's tried

made() { # FOLDER: the package and the archive, made anew
    dev/package.sh > "$scratch/names"
    mkdir "$1"
    xargs -a "$scratch/names" cp -t "$1"
}

made "$scratch/first"
made "$scratch/second"
for file in "$scratch"/first/*; do
    cmp "$file" "$scratch/second/${file##*/}"
done
dpkg-deb -x "$scratch"/first/*.deb "$scratch/root"
tests/readme.py --installed "$scratch/root"
tests/links.py --installed "$scratch/root"
for page in docs/*.[1-8]; do
    gzip -dc "$scratch/root/usr/share/man/man${page##*.}/${page##*/}.gz" | cmp - "$page"
done
mkdir "$scratch/archive"
tar -C "$scratch/archive" --strip-components=1 -xzf "$scratch"/first/*.tar.gz
diff -r --no-dereference "$scratch/root/usr" "$scratch/archive"

# Commits of one day, made in several time zones.
earlier=20261129.fffffff # of a package whose version has no hour
git init -q "$scratch/commits"
for date in 2026-11-29T14:00:01+14:00 2026-11-29T01:02:03+00:00 2026-11-29T09:59:59+00:00 2026-11-29T12:00:00+02:00 \
    2026-11-29T03:00:01-07:00 2026-11-30T12:00:00+14:00 2026-11-29T23:59:59+00:00; do
    GIT_COMMITTER_DATE=$date git -C "$scratch/commits" -c user.name=a -c user.email=a@b commit -q --allow-empty -m "$date"
    version=$(GIT_DIR=$scratch/commits/.git GIT_WORK_TREE=$scratch/commits dev/package.sh --version)
    dpkg --compare-versions "$earlier" lt "$version" || { echo "package: $earlier isn't before $version"; exit 1; }
    earlier=$version
done

# dpkg works in a root of its own, as root or as if it were.
as_root=$([ "$(id -u)" = 0 ] || echo fakeroot)
if [ -n "$as_root" ] && ! command -v fakeroot > /dev/null; then
    echo "package: there is no fakeroot, and this isn't root: installing is not tried"
    exit 0
fi
installed=$scratch/installed
mkdir -p "$installed/var/lib/dpkg/info" "$installed/var/lib/dpkg/updates"
touch "$installed/var/lib/dpkg/status"
in_root() { # ACTION..: there is no libc6 in that root, and no shell
    PATH=$PATH:/usr/sbin:/sbin $as_root dpkg --root="$installed" --force-script-chrootless --force-depends --log=/dev/null \
        "$@" > "$scratch/dpkg.log" 2>&1 || { cat "$scratch/dpkg.log"; exit 1; }
    ! grep -i 'not empty\|warning.*mqroute' "$scratch/dpkg.log" || exit 1
}
ran_as_root() { # a tool leaves compiled modules
    env -u PYTHONDONTWRITEBYTECODE python3 "$installed/usr/lib/mqroute/who_loses.py" --help > /dev/null
    [ -n "$(find "$installed/usr/lib/mqroute" -name __pycache__)" ] || { echo "package: no tool left a module"; exit 1; }
}
left() {
    find "$installed" -path '*mqroute*' -print
}

# An older package, with a module that the newer one doesn't have.
dpkg-deb -R "$scratch"/first/*.deb "$scratch/older"
sed -i 's/^Version: .*/Version: 20261129.fffffff/' "$scratch/older/DEBIAN/control"
mkdir "$scratch/older/usr/lib/mqroute/mqroute_tools/gone"
echo "pass" > "$scratch/older/usr/lib/mqroute/mqroute_tools/gone/module.py"
dpkg-deb --root-owner-group -Zgzip --build "$scratch/older" "$scratch/older.deb" > /dev/null
in_root -i "$scratch/older.deb"
ran_as_root
python3 -m compileall -q "$installed/usr/lib/mqroute/mqroute_tools/gone"
in_root -i "$scratch"/first/*.deb
[ ! -e "$installed/usr/lib/mqroute/mqroute_tools/gone" ] || { echo "package: an upgrade leaves a module"; exit 1; }
diff -r --no-dereference "$scratch/root/usr" "$installed/usr"
ran_as_root
in_root --purge mqroute
[ -z "$(left)" ] || { echo "package: left behind:"; left; exit 1; }
echo "package: the same bytes twice, the same files in both; later commits make later versions, and nothing is left behind"
