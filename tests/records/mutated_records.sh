#!/usr/bin/env bash
# mutated_records.sh PROGRAM: changes one byte of a long record of two chains, with chunks of either format, at a thousand random places. `check` then
# has to name a fault with status 3, at no entry before the one with the changed byte; or to find the record right, if the byte means nothing. Nothing
# else is written. The last line, `N passed, M failed`, counts records, and one test that nine tenths of them were found wrong.
. "$(dirname "${BASH_SOURCE[0]}")/../lib/common.sh" || exit 2
take_program "$1"
most=1000
# How many records were found wrong.
bad=0
RANDOM=1

record=$here/check/two_long_chains
entries=$(sed 's/^ok //' "$record.stdout")
text=$(<"$record")$'\n'
bytes=(0 1 7 9 ' ' '-' '"' ',' $'\r' $'\n' $'\xff' x P A)

for ((number = 0; number < most; number++)); do
    at=$(((RANDOM * 32768 + RANDOM) % ${#text}))
    byte=${bytes[RANDOM % ${#bytes[@]}]}
    if [ "${text:at:1}" = "$byte" ]; then
        byte=y
    fi
    printf '%s%s%s' "${text:0:at}" "$byte" "${text:at+1}" >"$room/record"
    timeout 10 "$program" check "$room/record" </dev/null >"$room/stdout" 2>"$room/stderr"
    status=$?
    said=$(<"$room/stdout")
    right=no
    if [ -s "$room/stderr" ]; then
        right=no
    elif [ "$status" = 0 ] && [ "$said" = "ok $entries" ]; then
        right=yes
    elif [ "$status" = 3 ] && [[ $said =~ ^bad\ ([0-9]+)\ (BadChunk|Gap|OtherChannel|Refused|WrongReply)$ ]]; then
        bad=$((bad + 1))
        # What stands before the byte is right: its entries are the lines that begin with a capital and a space.
        before=$(head -c "$at" "$room/record" | grep -c '^[PACGX] ')
        if [ "${BASH_REMATCH[1]}" -ge "$before" ] && [ "${BASH_REMATCH[1]}" -ge 1 ]; then
            right=yes
        fi
    fi
    if [ "$right" = yes ]; then
        pass
    else
        fail "byte $at changed to $(printf %q "$byte"): status $status, '$said'"
        head -c 500 "$room/stderr"
    fi
done
if [ "$bad" -ge $((most * 9 / 10)) ]; then
    pass
else
    fail "only $bad of $most were found wrong"
fi
told_all
