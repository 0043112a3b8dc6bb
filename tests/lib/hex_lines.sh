#!/usr/bin/env bash
# hex_lines.sh whole|bytes|PLACE: reads a script in which lines `say CONNECTION TEXT` stand for the bytes of a connection, and writes it with `bytes`
# lines in their place: one for each text, or one for each byte, or two, cut after PLACE bytes if the text has more. In a text, \r, \n and \\ stand
# for CR, LF and a backslash, \xHH for any byte. `many CONNECTION COUNT TEXT` stands for COUNT such texts.
set -eu
LC_ALL=C awk -v way="$1" '
BEGIN {
    for (b = 1; b < 256; b++) code[sprintf("%c", b)] = sprintf("%02x", b)
}
# The hexadecimal digits of a text.
function hex_of(text,    hex, at, c) {
    for (at = 1; at <= length(text); at++) {
        c = substr(text, at, 1)
        if (c != "\\") { hex = hex code[c]; continue }
        at++
        c = substr(text, at, 1)
        if (c == "r") hex = hex "0d"
        else if (c == "n") hex = hex "0a"
        else if (c == "x") { hex = hex substr(text, at + 1, 2); at += 2 }
        else hex = hex code[c]
    }
    return hex
}
function repeated(hex, count,    all) {
    for (; count > 0; count = int(count / 2)) { if (count % 2) all = all hex; hex = hex hex }
    return all
}
function put(number, hex) {
    if (hex != "") print "bytes " number " " hex
}
function feed(number, hex,    at) {
    if (way == "whole") put(number, hex)
    else if (way == "bytes") for (at = 1; at < length(hex); at += 2) put(number, substr(hex, at, 2))
    else { put(number, substr(hex, 1, 2 * way)); put(number, substr(hex, 2 * way + 1)) }
}
$1 == "say" { feed($2, hex_of(substr($0, length($1 " " $2 " ") + 1))); next }
$1 == "many" { feed($2, repeated(hex_of(substr($0, length($1 " " $2 " " $3 " ") + 1)), $3)); next }
{ print }
'
