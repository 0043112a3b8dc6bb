#!/usr/bin/env bash
# upgrades.sh PROGRAM: has each record of check/ written in format 2. If a record is right, the result is found right, with as many entries; its
# chunks are all of format 2 and stand at the same entries, with the same settings lines; and `upgrade` leaves it as it is. If a record isn't right,
# only the line that `check` writes is written. The last line, `N passed, M failed`, counts records.
. "$(dirname "${BASH_SOURCE[0]}")/../lib/common.sh" || exit 2
take_program "$1"

# frame FILE: prints the lines of its chunks that stay: where each stands, its settings, and its end.
frame() {
    grep -aE '^(channel |at |#END$)' "$1"
}

# is_upgrade RECORD ANSWER FILE: returns whether FILE is this record in format 2; ANSWER is what `check` writes of it.
is_upgrade() {
    [ "$("$program" check "$3")" = "$2" ] || return 1
    ! grep -qa '^#LLHLS-CHUNK 1$' "$3" || return 1
    cmp -s <(frame "$1") <(frame "$3") || return 1
    "$program" upgrade "$3" | cmp -s - "$3"
}

for answer in "$here"/check/*.stdout; do
    record=${answer%.stdout}
    "$program" upgrade "$record" >"$room/upgraded" 2>"$room/stderr"
    status=$?
    read -r verdict _ <"$answer"
    # (of an empty record it is said that nothing was written yet)
    if ! all_of "$room/stderr" || { [ -s "$record" ] && [ -n "$said" ]; } || ! is_said ''; then
        fail "${record##*/}: $(<"$room/stderr")"
    elif [ "$verdict" = ok ] && [ "$status" = 0 ] && is_upgrade "$record" "$(<"$answer")" "$room/upgraded"; then
        pass
    elif [ "$verdict" = bad ] && [ "$status" = 3 ] && cmp -s "$room/upgraded" "$answer"; then
        pass
    else
        fail "${record##*/}: status $status"
        head -c 500 "$room/upgraded"
    fi
done
told_all
