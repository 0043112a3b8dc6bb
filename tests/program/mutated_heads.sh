#!/usr/bin/env bash
# mutated_heads.sh PROGRAM: makes a thousand mutated heads, three fourths of them from those of the rows of connections/ with the channel `cam`, and
# the others from one with a long field, which is mostly answered still. It feeds each to a connection of its own, in one piece and cut in two, and lets
# the clock pass all time-outs. Both runs have to write the same: whole responses alone, each with as many bytes as it announces, and none after `shut`;
# and another connection, fed before and after, has to get its playlist. At least a tenth are answered with a playlist or media, and at least a tenth are
# refused. The last line, `N passed, M failed`, counts heads, and a tenth that was missed.
. "$(dirname "${BASH_SOURCE[0]}")/../lib/common.sh" || exit 2
take_program "$1"
most=1000
served=0
refused=0
RANDOM=2

heads=()
while read -r _ _ hex; do
    if [ "${#hex}" -le 400 ]; then
        heads+=("$hex")
    fi
done < <(grep -l '^channel cam ' "$here"/connections/* | while read -r row; do "$lib/hex_lines.sh" whole <"$row"; done | grep '^bytes')
plain=474554202f63616d2f68692f6c6976652e6d33753820485454502f312e310d0a486f73743a20610d0a0d0a
long=${plain%0d0a}557365722d4167656e743a20$(printf '61%.0s' {1..100})0d0a0d0a

# change: changes one or two bytes of `hex`: gives one another value, removes it, doubles it, replaces it by one of those that heads are made of, or
# cuts off what follows it.
special=(0d 0a 20 3a 00 2f 3f 26 3d 2c 09 7f c3 25 31 30)
change() {
    local times=$((1 + RANDOM % 2)) at
    while [ "$times" -gt 0 ]; do
        times=$((times - 1))
        at=$((2 * (RANDOM % (${#hex} / 2))))
        case $((RANDOM % 5)) in
        0) printf -v hex '%s%02x%s' "${hex:0:at}" $((RANDOM % 256)) "${hex:at+2}" ;;
        1) hex=${hex:0:at}${hex:at+2} ;;
        2) hex=${hex:0:at+2}${hex:at:2}${hex:at+2} ;;
        3) hex=${hex:0:at}${special[RANDOM % 16]}${hex:at+2} ;;
        4) hex=${hex:0:at+2} ;;
        esac
        if [ -z "$hex" ]; then
            hex=0d
        fi
    done
}

# script HEX..: prints a script in which connection 2 is served before and after the bytes of connection 1.
script() {
    printf '%s\nbytes 2 %s\n' "$cam" "$plain"
    printf 'bytes 1 %s\n' "$@"
    printf 'pub cam part hi 1000000 if\nclock 100000\nbytes 2 %s\n' "$plain"
}

# is_right FILE: returns whether the output is made of whole responses, with connection 2's as they should be, and prints the statuses of connection
# 1.
is_right() {
    awk 'BEGIN { RS = "\n"; state = "" }
    left > 0 {
        # (the LF after media is not counted in its length)
        if ($0 == "Content-Type: video/mp4\r") left++
        left -= length($0) + 1
        if (left < 0) exit bad = 1
        if (first) { states[number] = states[number] " " $2; first = 0 }
        next
    }
    $1 == "sent" && NF == 3 && !shut[$2] { number = $2; left = $3; first = 1; next }
    $1 == "shut" && NF == 2 && $2 == 1 { shut[1] = 1; next }
    $0 == "ok 1" { next }
    { exit bad = 1 }
    END { if (bad || left > 0 || states[2] != " 200 200") exit 1; print states[1] }' "$1"
}

for ((number = 0; number < most; number++)); do
    hex=${heads[number % ${#heads[@]}]}
    if [ $((number % 4)) = 0 ]; then
        hex=$long
    fi
    change
    cut=$((2 * (RANDOM % (${#hex} / 2 + 1))))
    script "$hex" >"$room/whole"
    if [ "$cut" = 0 ] || [ "$cut" = "${#hex}" ]; then
        cp "$room/whole" "$room/cut"
    else
        script "${hex:0:cut}" "${hex:cut}" >"$room/cut"
    fi
    if timeout 10 "$program" replay <"$room/whole" >"$room/stdout" && timeout 10 "$program" replay <"$room/cut" >"$room/again" &&
        cmp -s "$room/stdout" "$room/again" && states=$(is_right "$room/stdout"); then
        pass
        case "$states " in
        *' 200 '*) served=$((served + 1)) ;;
        *' 4'*) refused=$((refused + 1)) ;;
        esac
    else
        fail "head $number: $hex, cut at $((cut / 2))"
    fi
done
echo "$served served, $refused refused"
if [ $((10 * served)) -lt "$most" ] || [ $((10 * refused)) -lt "$most" ]; then
    fail 'less than a tenth ended one way'
fi
told_all
