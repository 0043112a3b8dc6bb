#!/usr/bin/env bash
# deb.sh [FOLDER]: builds the Debian package llhls_VERSION_amd64.deb in FOLDER, packaging/out if it isn't given, and prints its path. VERSION is that of
# the file VERSION at the top. It holds the proved program (tests/program.sh), or the one that PROGRAM names; if that says that it isn't proved, as the
# quick program does, VERSION ends in `~unproved`, and the description says so. The same commit and program result in the same bytes: all times are
# that of the last commit, or SOURCE_DATE_EPOCH.
set -euo pipefail
folder=$(realpath -m -- "${1-$(dirname "${BASH_SOURCE[0]}")/out}")
program=$(LLHLS=${PROGRAM-${LLHLS-}} "$(dirname "${BASH_SOURCE[0]}")/../tests/program.sh")
cd "$(dirname "${BASH_SOURCE[0]}")/.."
umask 022
export LC_ALL=C TZ=UTC

# last FORMAT OTHER: prints the last commit in this format, or OTHER if there is no repository.
last() {
    git log -1 --format="$1" 2>/dev/null || echo "$2"
}

export SOURCE_DATE_EPOCH=${SOURCE_DATE_EPOCH-$(last %ct "$(stat -c %Y VERSION)")}
version=$(<VERSION)
proof=' Every byte of every playlist is proved to be the one that the rules give for\n what was published.'
libraries=libc.so.6
if grep -q ', not proved$' < <("$program" version 2>/dev/null </dev/null); then
    version=$version~unproved
    proof=' This program is NOT PROVED: it was built from the sources as they are, with\n checks that stop it at a fault.'
    libraries='libc.so.6 libgcc_s.so.1 libm.so.6'
fi
maintainer=${MAINTAINER-$(last '%an <%ae>' 'nobody <nobody@localhost>')}
room=$(mktemp -d)
trap 'rm -rf "$room"' EXIT
tree=$room/tree
doc=$tree/usr/share/doc/llhls

# put MODE FOLDER FILE..: copies files to a folder of the package.
put() {
    install -d "$tree/$2"
    install -m "$1" -t "$tree/$2" "${@:3}"
}

# pack FILE: writes standard input to a file of the package, compressed.
pack() {
    install -d "$(dirname "$tree/$1")"
    gzip -9n >"$tree/$1"
}

# depends: prints the packages that the program needs. It is linked with the C library alone, if it isn't the quick one.
depends() {
    local needed beyond
    needed=$(objdump -p "$program" | awk '$1 == "NEEDED" { print $2 }')
    beyond=$(grep -Fxv "${libraries// /$'\n'}" <<<"$needed" || true)
    if [ -n "$beyond" ]; then
        echo "deb.sh: the program needs other libraries than $libraries:" $beyond >&2
        return 1
    fi
    echo "libc6 (>= $(objdump -T "$program" | grep -o 'GLIBC_[0-9.]*' | sort -uV | sed -n '$s/GLIBC_//p'))$(sed -n 's/^libgcc_s.*/, libgcc-s1/p' <<<"$needed")"
}

changelog() {
    printf 'llhls (%s) unstable; urgency=medium\n\n  * Built from commit %s.\n\n -- %s  %s\n' "$version" "$(last %H unknown)" "$maintainer" "$(date -R -d "@$SOURCE_DATE_EPOCH")"
}

put 755 usr/bin "$program"
[ "${program##*/}" = llhls ] || mv "$tree/usr/bin/${program##*/}" "$tree/usr/bin/llhls"
pack usr/share/man/man1/llhls.1.gz <docs/llhls.1
put 644 lib/systemd/system packaging/llhls@.service
put 644 usr/share/lintian/overrides packaging/lintian/llhls
# (the folders are those of the repository, so that the pages' links work)
put 644 usr/share/doc/llhls README.md packaging/copyright
put 644 usr/share/doc/llhls/docs docs/*.md
put 644 usr/share/doc/llhls/examples packaging/cam.conf examples/*.*
chmod 755 "$doc/examples/"{near,publish}.py
rm "$doc/examples/demo.sh"
put 644 usr/share/doc/llhls/examples/edge examples/edge/*
changelog | pack usr/share/doc/llhls/changelog.gz
install -d "$tree/etc/llhls"

size=$(find "$tree" -printf '%y %s\n' | awk '{ sum += $1 == "f" ? int(($2 + 1023) / 1024) : 1 } END { print sum }')
install -d "$tree/DEBIAN"
install -m 755 packaging/postinst packaging/prerm packaging/postrm "$tree/DEBIAN"
depends=$(depends)
sed "s/@version@/$version/; s/@maintainer@/$maintainer/; s/@size@/$size/; s/@depends@/$depends/; s/@proof@/$proof/" packaging/control >"$tree/DEBIAN/control"
(cd "$tree" && find . -path ./DEBIAN -prune -o -type f -printf '%P\0' | sort -z | xargs -0 md5sum) >"$room/md5sums"
install -m 644 "$room/md5sums" "$tree/DEBIAN"
find "$tree" -exec touch -h -d "@$SOURCE_DATE_EPOCH" {} +
mkdir -p "$folder"
# (one thread: the number of threads changes the bytes)
dpkg-deb --root-owner-group -Zxz --threads-max=1 --build "$tree" "$room/package" >/dev/null
mv -f "$room/package" "$folder/llhls_${version}_amd64.deb"
echo "$folder/llhls_${version}_amd64.deb"
