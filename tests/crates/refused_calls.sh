#!/usr/bin/env bash
# refused_calls.sh: proves the program ll_refused of refused/, in a copy of the crates that it stands on, and runs it under the library that refuses
# memory as it orders. Compares its line for each call with refused_calls.stdout: how many refusals the call met, how often it returned Memory,
# and `ok`. The last line, `N passed, M failed`, counts calls.
. "$(dirname "${BASH_SOURCE[0]}")/../lib/common.sh" || exit 2
cd "$root" || exit 2
. tests/lib/copy.sh
compile "$here/refused_calls.c" -shared -fPIC
copy_tests tests/crates/refused "$room/all"
if ! (cd "$room/all" && rt ci) </dev/null >"$room/proofs" 2>&1; then
    give_up "$(tail -n 20 "$room/proofs")"
fi
LD_PRELOAD=$room/refused_calls timeout 60 "$room/all/crates/ll_refused/out/ll_refused" >"$room/told"
status=$?
while IFS= read -r -u 3 wanted; do
    IFS= read -r -u 4 told || told='nothing'
    if [ "$told" = "$wanted" ]; then
        pass
        echo "$told"
    else
        fail "$wanted: it told $told"
    fi
done 3<"$here/refused_calls.stdout" 4<"$room/told"
if [ "$status" != 0 ] || [ "$(wc -l <"$room/told")" != "$(wc -l <"$here/refused_calls.stdout")" ]; then
    fail "it ended with status $status after $(wc -l <"$room/told") lines"
fi
told_all
