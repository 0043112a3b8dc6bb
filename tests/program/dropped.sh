#!/usr/bin/env bash
# dropped.sh PROGRAM: runs rows of connections/ whose connection 1 ends too early. First, the bytes of its first `say` line are cut after 1, 2, 3
# .. bytes, and the connection ends before the others come: nobody takes those, and requests of the connection until then are closed. Then the
# connection ends after each of the script's lines. Each time the program has to write what the row has on other connections, to `get` lines and to
# publishers, and nothing on connection 1 after its end. The last line, `N passed, M failed`, counts runs.
. "$(dirname "${BASH_SOURCE[0]}")/../lib/common.sh" || exit 2
take_program "$1"

# others: prints what a script writes, but for the lines of connection 1.
others() {
    LC_ALL=C awk '
        left > 0 { left -= length($0) + 1; if (!mine) print; next }
        $1 == "sent" { left = $3; mine = $2 == 1; if (!mine) print; next }
        $1 == "shut" && $2 == 1 { next }
        { print }'
}

# drops SCRIPT LINE: ends the connection after LINE lines of a script. Tests that it writes what the lines until then write, and what the others write
# after it.
drops() {
    head -n "$2" "$1" >"$room/front"
    { cat "$room/front"; echo 'drop 1'; tail -n "+$(($2 + 1))" "$1"; } >"$room/script"
    "$program" replay <"$room/front" >"$room/written" 2>/dev/null
    "$program" replay <"$1" | tail -c "+$(($(wc -c <"$room/written") + 1))" | others >>"$room/written"
    expect "$row, dropped after line $2 $3" "$room/written" 0 '' replay <"$room/script"
}

for row in pipelined_request_is_answered_after_the_one_that_waited pipelined_request_to_another_channel next_request_waits_again; do
    "$lib/hex_lines.sh" whole <"$here/connections/$row" >"$room/whole"
    first=$(grep -n -m 1 '^bytes 1 ' "$room/whole" | cut -d: -f1)
    for line in $(seq "$first" "$(wc -l <"$room/whole")"); do
        drops "$room/whole" "$line" whole
    done
    length=$(($(sed -n "${first}p" "$room/whole" | awk '{ print length($3) / 2 }') - 1))
    for at in $(seq 1 "$length"); do
        "$lib/hex_lines.sh" "$at" <"$here/connections/$row" >"$room/cut"
        drops "$room/cut" "$first" "cut $at"
    done
done
told_all
