#!/usr/bin/env bash
# build.sh [NAME]: proves the program llhls, or that called NAME, with every library that it stands on, on all processors. Prints the program's path
# on standard output, and a line for each crate that is proved on standard error. It is proved as `rt ci` proves a repository, in a copy of these
# crates without their must-fail edits; if the kit keeps what it proved, `make test` takes it from there.
set -euo pipefail
cd "$(dirname "${BASH_SOURCE[0]}")/.."
. tests/lib/copy.sh
name=${1:-llhls}
room=$(mktemp -d)
trap 'rm -rf "$room"' EXIT
copy_crates "$room/all" "$name"
made=$PWD/crates/$name/out
mkdir -p "$made"

# Proves all crates, and prints what `rt ci` prints.
prove_all() {
    prove_ahead "$room" "$room/all/crates.txt" || true
    (cd "$room/all" && rt ci)
}

if ! prove_all </dev/null 2>&1 | tee "$made/build.log" | news | tell "$(wc -l <"$room/all/crates.txt")" "$room"/{low,middle,high,ahead,all} >&2; then
    echo "$made/build.log says why" >&2
    exit 1
fi
mv -f "$room/all/crates/$name/out/$name" "$made/$name"
echo "$made/$name"
