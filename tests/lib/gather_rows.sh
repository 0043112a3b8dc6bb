#!/usr/bin/env bash
# gather_rows.sh FOLDER: makes FOLDER and puts all rows into it: those of tests/program/rows, those of connections/ there with their bytes in one piece, the
# examples of `docs/SCRIPTS.md` and of `make run`, and those of long lines, which are made here. A row is its script NAME, its output NAME.stdout, and
# NAME.args if it has words beside `replay`. tests/program/endings says how a row ends that doesn't end with status 0.
. "$(dirname "${BASH_SOURCE[0]}")/common.sh" || exit 2
set -e
to=$(realpath -- "$1")
cd "$root/tests/program"
mkdir "$to"
cp rows/* "$to"
for output in connections/*.stdout; do
    name=${output##*/}
    cp "$output" "$to/$name"
    "$lib/hex_lines.sh" whole <"${output%.stdout}" >"$to/${name%.stdout}"
done
cp "$root"/examples/live.script "$to/live_example"
cp "$root"/examples/live.expected "$to/live_example.stdout"
cp "$root"/examples/held.script "$to/held_example"
cp "$root"/examples/held.expected "$to/held_example.stdout"

settings='channel cam target=4 part=1000000 skip=24 window=36 renditions=hi first=0 start=0'
part='pub cam part hi 1000000 if'

# comment BYTES: prints a comment of BYTES bytes, without its end of line.
comment() {
    printf '#'
    many $(($1 - 1))
}

# row NAME OUTPUT: makes a row whose script is standard input.
row() {
    cat >"$to/$1"
    printf '%s' "$2" >"$to/$1.stdout"
}

{ comment 65536; printf '\n%s\n%s\n' "$settings" "$part"; } | row comment_of_65536_bytes $'ok 1\n'
{ comment 65536; printf '\r\n%s\n%s\n' "$settings" "$part"; } | row comment_of_65536_bytes_and_crlf $'ok 1\n'
{ comment 65536; } | row comment_of_65536_bytes_without_its_end ''
{ comment 65537; printf '\n%s\n%s\n' "$settings" "$part"; } | row comment_of_65537_bytes ''
{ comment 65537; printf '\r\n'; } | row comment_of_65537_bytes_and_crlf ''
{ comment 65536; printf '\r\r\n'; } | row comment_of_65536_bytes_and_two_cr ''
{ comment 65536; printf '\r'; } | row comment_of_65536_bytes_and_a_last_cr ''
{ printf '%s\n%s\n' "$settings" "$part"; comment 65537; } | row last_line_of_65537_bytes $'ok 1\n'
{ printf '%s\n%s\n' "$settings" "$part"; comment 300000; printf '\n%s\n' "$part"; } | row line_of_300000_bytes $'ok 1\n'
{ printf '%s\npub cam ' "$settings"; many 65528; printf '\n%s\n' "$part"; } | row pub_of_65536_bytes $'no 13 BadLine\nok 1\n'
{ printf '%s\npub cam ' "$settings"; many 65529; printf '\n%s\n' "$part"; } | row pub_of_65537_bytes ''
{ many 65536; printf '\n'; } | row line_of_65536_bytes_and_no_meaning ''
