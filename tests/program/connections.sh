#!/usr/bin/env bash
# connections.sh PROGRAM: runs each row of connections/ with its bytes cut in every way: in one piece, byte by byte, and each text cut in two
# after 1, 2, 3 .. bytes, up to the length of the row's longest `say` line. Each time the program has to write the row's output. The last line, `N
# passed, M failed`, counts runs.
. "$(dirname "${BASH_SOURCE[0]}")/../lib/common.sh" || exit 2
take_program "$1"

for output in "$here"/connections/*.stdout; do
    row=${output%.stdout}
    longest=$("$lib/hex_lines.sh" whole <"$row" | awk '$1 == "bytes" && length($3) <= 2000 && length($3) > most { most = length($3) } END { print most / 2 }')
    for way in whole bytes $(seq 1 $((longest - 1))); do
        "$lib/hex_lines.sh" "$way" <"$row" >"$room/script"
        expect "${row##*/}, cut $way" "$output" 0 '' replay <"$room/script"
    done
done
told_all
