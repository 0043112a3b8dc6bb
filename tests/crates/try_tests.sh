#!/usr/bin/env bash
# try_tests.sh: runs the tests of ll_tests on the crates as `rt try` builds them: unproved, with checks that stop a test at a fault. (If crates.txt
# had them, `rt ci` would prove each function of the tests too.) The last line is `N passed, M failed`.
. "$(dirname "${BASH_SOURCE[0]}")/../lib/common.sh" || exit 2
cd "$root" || exit 2
. tests/lib/copy.sh
tests=tests/crates/ll_tests
used=$(grep -rhoE '\bll_[a-z_]+' "$tests/src" | sort -u | grep -Fxf <(grep -o '^[a-z_]*' crates.txt))
copy_crates "$room" $used
cp -r "$tests" "$room/crates"
echo "ll_tests:" $used >>"$room/crates.txt"
cd "$room/crates/ll_tests" || exit 2
# (`rt ci` refuses a file *.rt that no crate of crates.txt reads)
find . -name '*.rt.in' -exec sh -c 'for file; do mv "$file" "${file%.in}"; done' sh {} +
cp -r . "$room/written"
if rt fmt >"$room/said" 2>&1 && diff -r "$room/written" . >>"$room/said"; then
    pass
else
    cat "$room/said"
    fail "$tests is not as rt fmt leaves it"
fi
rt try --test --seconds 600 >"$room/said" 2>&1
wanted=$(grep -rh '#\[test\]' src | wc -l)
ended=$(grep -c '^test .* \.\.\. ok$' "$room/said")
passed=$((passed + ended))
if [ "$ended" != "$wanted" ] || ! grep -q '^run=ended status=0 ' "$room/said"; then
    grep -v ' \.\.\. ok$' "$room/said"
    fail "of $wanted tests, $ended ended well"
fi
told_all
