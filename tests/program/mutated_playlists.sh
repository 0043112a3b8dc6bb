#!/usr/bin/env bash
# mutated_playlists.sh PROGRAM: makes a thousand mutated playlists from the rows of apply/, of the base and of the delta by turns, and puts each
# in its row's place. `apply` then has to end with status 3, nothing written and one fault, which is of the mutated playlist or NotRecent; or with
# status 0, no fault, and a text that, applied to itself, is itself. At least a third end each way. The last line, `N passed, M failed`, counts
# playlists, and a third that was missed.
. "$(dirname "${BASH_SOURCE[0]}")/../lib/common.sh" || exit 2
take_program "$1"
most=1000
# How many runs ended with a text, and how many with a fault.
applied=0
refused=0
RANDOM=1

# The rows of which both playlists can be read.
rows=()
for row in "$here"/apply/*/; do
    row=${row%/}
    ending_of "apply/${row##*/}"
    if [[ $fault != *Bad* ]]; then
        rows+=("$row")
    fi
done

# change KIND: changes `text`; the result can be what it was. Digits are changed more often than others, since most other changes are refused.
bytes=(0 7 9 '"' ',' ':' $'\r' $'\n' $'\xff' x)
kinds=(byte byte digit digit digit digit digit digit byte_out line_out line_twice line_exchanged cut)
change() {
    local at=$((RANDOM % ${#text})) lines line
    mapfile lines <<<"$text"
    # The here-string has put an LF after the last line.
    lines[-1]=${lines[-1]%$'\n'}
    line=$((RANDOM % ${#lines[@]}))
    case $1 in
    byte) text=${text:0:at}${bytes[RANDOM % ${#bytes[@]}]}${text:at+1} ;;
    digit)
        while [[ ${text:at:1} != [0-9] ]]; do
            at=$((RANDOM % ${#text}))
        done
        text=${text:0:at}$((RANDOM % 10))${text:at+1}
        ;;
    byte_out) text=${text:0:at}${text:at+1} ;;
    cut) text=${text:0:at} ;;
    *)
        case $1 in
        line_out) lines[line]= ;;
        line_twice) lines[line]+=${lines[line]} ;;
        line_exchanged) lines[line]=${lines[line + 1]-}${lines[line]} lines[line + 1]= ;;
        esac
        printf -v text %s "${lines[@]}"
        ;;
    esac
}

# is_right SIDE: returns whether the run ended as it should, with the mutated playlist in place of the row's SIDE.
is_right() {
    local side=$1 faults status
    case $side in
    base) faults='BadBase|NotRecent [0-9]+' ;;
    delta) faults='BadDelta|NotRecent [0-9]+' ;;
    esac
    timeout 10 "$program" apply "$base" "$delta" </dev/null >"$room/stdout" 2>"$room/stderr"
    status=$?
    all_of "$room/stderr" || return 1
    case $status in
    0)
        applied=$((applied + 1))
        [ -z "$said" ] && [ -s "$room/stdout" ] || return 1
        timeout 10 "$program" apply "$room/stdout" "$room/stdout" </dev/null >"$room/again" 2>"$room/stderr" &&
            [ ! -s "$room/stderr" ] && cmp -s "$room/stdout" "$room/again"
        ;;
    3)
        refused=$((refused + 1))
        [ ! -s "$room/stdout" ] && [[ ${said%%$'\n'*} =~ ^llhls:\ ($faults)$ ]] && is_said "${said%%$'\n'*}"
        ;;
    *) return 1 ;;
    esac
}

for ((number = 0; number < most; number++)); do
    row=${rows[number / 2 % ${#rows[@]}]}
    kind=${kinds[RANDOM % ${#kinds[@]}]}
    base=$row/base
    delta=$row/delta
    if [ $((number % 2)) = 0 ]; then
        side='base'
        base=$room/base
    else
        side='delta'
        delta=$room/delta
    fi
    all_of "$row/$side" || exit 2
    text=$said
    while [ "$text" = "$said" ]; do
        change "$kind"
    done
    printf %s "$text" >"$room/$side"
    if is_right "$side"; then
        pass
    else
        fail "${row##*/}, its $side mutated ($kind, number $number): $(head -c 2000 "$room/stderr")"
        # A program that is wrong at each playlist would fill the screen.
        if [ "$failed" -le 3 ]; then
            diff -a "$row/$side" "$room/$side"
        fi
    fi
done
echo "$applied ended with a text, $refused with a fault"
if [ $((3 * applied)) -lt "$most" ] || [ $((3 * refused)) -lt "$most" ]; then
    fail 'less than a third ended one way'
fi
told_all
