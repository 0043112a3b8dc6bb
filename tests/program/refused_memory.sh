#!/usr/bin/env bash
# refused_memory.sh [ROW..]: first, if no row is named, tries single calls, as tests/crates/refused_calls.sh does. Then, for each row named, or for all, refuses
# the Nth allocation of the program, for N from 1 until a run meets no refusal; refused_memory.py says how such a run is allowed to end. A row of
# apply/ is named apply/NAME, one of tests/records/check/ check/NAME, one of tests/records/upgrade/ upgrade/NAME, one of tests/records/explain/ explain/NAME. If the texts
# of a row of apply/ have a fault, Memory comes only of the program's arguments and of reading the files: no run ends in Memory after one that
# ended in the fault. It prints how many N were tried, and how the runs ended. The last line, `N passed, M failed`, counts calls and rows.
. "$(dirname "${BASH_SOURCE[0]}")/../lib/common.sh" || exit 2
program=$("$root/tests/program.sh") || exit 2
compile "$here/refused_memory.c" -shared -fPIC
"$lib/gather_rows.sh" "$room/rows" || exit 2

# show WORD..: runs a command, shows its output but for the last line, and adds the numbers of that.
show() {
    "$@" | tee "$log" | sed -u '$d'
    add "${PIPESTATUS[0]}" "$log" "$1"
}

if [ $# = 0 ]; then
    show "$root/tests/crates/refused_calls.sh"
fi
show python3 "$here/refused_memory.py" "$program" "$room/refused_memory" "$root/tests" "$room/rows" "$@"
told_all
