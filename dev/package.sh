#!/usr/bin/env bash
# Makes dist/mqroute_TIME.COMMIT_amd64.deb, and a .tar.gz of the same files, of what stands in bin/. TIME and COMMIT are the
# last commit's, with a + behind them where files are changed. The same commit gives the same bytes. TIME goes to the second,
# in UTC, so that a later commit has a later version. usage: package.sh [--version: print the version, and make nothing]
set -euo pipefail
cd "$(dirname "$0")/.."
umask 022

version=$(PYTHONPATH=tools python3 -B -m mqroute_tools.common.version) # as the tools' --version says it
commit=${version#*.}
commit=${commit%+}
SOURCE_DATE_EPOCH=$(git log -1 --format=%ct)
export SOURCE_DATE_EPOCH
if [ "${1:-}" = --version ]; then
    echo "$version"
    exit
fi
name=mqroute_${version}_amd64
scratch=$(mktemp -d)
trap 'rm -rf "$scratch"' EXIT
root=$scratch/mqroute-$version
usr=$root/usr
doc=$usr/share/doc/mqroute

# Which Python will read the modules isn't known: they aren't compiled.
make --no-print-directory -s install DESTDIR="$root" PREFIX=/usr PYTHON=

# The sessions of README, guides and reference begin in a copy of this folder, as in a clone.
install -d "$doc/docs" "$doc/brokers/recorded"
cp -r README.md examples "$doc"
cp -r docs/adr docs/definitions docs/explanation docs/reference docs/preview.png "$doc/docs"
cp brokers/recorded/plain.log brokers/recorded/plain.acl brokers/recorded/proposed.acl "$doc/brokers/recorded"
find "$doc" -name __pycache__ -prune -exec rm -rf {} +
cp -r docs/guide docs/GLOSSARY.md docs/preview.png "$doc/docs"
install -d "$doc/brokers/differences"
grep -rhoE 'brokers/differences/[a-z-]+\.jsonl' docs/guide docs/reference | sort -u | xargs cp -t "$doc/brokers/differences"

# As Debian has it: no symbols, pages packed, the system's python3.
strip "$usr/bin/mqroute" "$usr/bin/mqroute-acl"
PYTHONPATH=tools python3 -B -m mqroute_tools.common.built "$usr/bin/mqroute" "$usr/bin/mqroute-acl" \
    > "$usr/lib/mqroute/mqroute_tools/PROGRAMS" # with their checksums as they are now
gzip -9n "$usr"/share/man/man1/*.1 "$usr"/share/man/man7/*.7
sed -i '1s,^#!/usr/bin/env python3$,#!/usr/bin/python3,' "$usr"/lib/mqroute/*.py
printf 'mqroute (%s) unstable; urgency=medium\n\n  * Commit %s.\n\n -- %s  %s\n' "$version" "$commit" \
    "$(git log -1 --format='%cn <%ce>')" "$(date -u -R -d "@$SOURCE_DATE_EPOCH")" | gzip -9n > "$doc/changelog.gz"

# The tools are Python, and both programs do without it: so python3 is recommended.
install -d "$usr/share/lintian/overrides"
printf 'mqroute: %s\n' 'python3-script-but-no-python3-dep *' 'missing-dep-for-interpreter *' \
    > "$usr/share/lintian/overrides/mqroute"

chmod -R u=rwX,go=rX "$root"
install -d dist
tar --sort=name --mtime="@$SOURCE_DATE_EPOCH" --owner=0 --group=0 --numeric-owner --transform="s,/usr,," \
    -C "$scratch" -cf - "mqroute-$version/usr" | gzip -9n > "dist/$name.tar.gz"

# The least glibc that the programs ask for.
libc=$(objdump -T "$usr/bin/mqroute" "$usr/bin/mqroute-acl" | grep -o 'GLIBC_[0-9.]*' | sort -Vu | tail -1)
install -d "$root/DEBIAN"
cat > "$root/DEBIAN/control" <<END
Package: mqroute
Version: $version
Section: net
Priority: optional
Architecture: amd64
Maintainer: $(git log -1 --format='%cn <%ce>')
Installed-Size: $(du -sk --apparent-size "$usr" | cut -f 1)
Depends: libc6 (>= ${libc#GLIBC_})
Recommends: python3, jq
Suggests: python3-paho-mqtt
Description: shows which MQTT clients would receive what
 mqroute runs a script of MQTT 5 commands (connect, subscribe, publish, set an
 access list ..) offline and lists the copies that a broker would deliver.
 mqroute-acl compares mosquitto access lists for every client, user and topic,
 and names the lines that decide.
 .
 Tools make such a script of a mosquitto log, list who loses what under a new
 access list, and compare a live broker with mqroute. mqr has all of these as
 subcommands.
END
# Where root runs a tool, Python keeps the modules compiled beside them, in files that dpkg doesn't know. They go before the
# package does, and before a newer one comes. By find and not by py3clean: python3 may be gone by then, or never have been there.
cat > "$root/DEBIAN/prerm" <<'END'
#!/bin/sh
set -e
if [ -d "$DPKG_ROOT/usr/lib/mqroute" ]; then
    find "$DPKG_ROOT/usr/lib/mqroute" -depth -name __pycache__ -exec rm -rf {} +
fi
END
chmod 755 "$root/DEBIAN/prerm"
(cd "$root" && find usr -type f -print0 | sort -z | xargs -0 md5sum) > "$root/DEBIAN/md5sums"
find "$root" -exec touch -h -d "@$SOURCE_DATE_EPOCH" {} +
dpkg-deb --root-owner-group -Zgzip --build "$root" "dist/$name.deb" > /dev/null
echo "dist/$name.deb"
echo "dist/$name.tar.gz"
