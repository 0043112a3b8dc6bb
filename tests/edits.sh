#!/usr/bin/env bash
# edits.sh [CRATE..]: tries each must-fail edit of these crates, or of all: those of `edits/CRATE`, and those of `crates/CRATE/must-fail`, which `make
# test` tries too. They are tried as `rt ci` tries them, in a copy of the crates; if the kit keeps what was proved and tried, later runs take it from
# there. The last line, `N passed, M failed`, counts crates and edits.
set -euo pipefail
cd "$(dirname "${BASH_SOURCE[0]}")/.."
. tests/lib/copy.sh
copy=$(mktemp -d) said=$(mktemp)
trap 'rm -rf "$copy" "$said"' EXIT
if [ $# = 0 ]; then
    set -- $(printf '%s\n' edits/* crates/*/must-fail | sed 's|^crates/||; s|^edits/||; s|/must-fail$||' | sort -u)
fi
copy_crates "$copy" "$@"
for crate in "$@"; do
    mkdir "$copy/crates/$crate/must-fail"
    find "edits/$crate" "crates/$crate/must-fail" -name '*.edit' -exec cp {} "$copy/crates/$crate/must-fail" \; 2>/dev/null || true
done
cd "$copy"
# The line of each edit says whether it was refused.
rt ci </dev/null 2>&1 | grep --line-buffered -E '\.edit: |NOT PROVED|^rt: |passed, ' | tee "$said" | grep --line-buffered -v ' passed, ' || true
if [[ $(tail -n 1 "$said") =~ ^([0-9]+)\ passed,\ ([0-9]+)\ failed ]]; then
    passed=${BASH_REMATCH[1]} failed=${BASH_REMATCH[2]}
else
    passed=0 failed=1
fi
# An edit that doesn't compile says nothing of a contract; `rt ci` passes over it.
failed=$((failed + $(grep -c '\.edit: BAD EDIT' "$said" || true)))
echo "$passed passed, $failed failed"
[ "$failed" = 0 ]
