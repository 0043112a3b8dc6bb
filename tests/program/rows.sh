#!/usr/bin/env bash
# rows.sh PROGRAM [NAME..]: runs each row on a built program, and compares what it writes and how it ends. Then come other uses of the program, and
# devices that fail. If rows are named, only these run: one of rows/, of connections/ or of long lines by its name, one of apply/ as apply/NAME, and
# those of tests/records as check/NAME, upgrade/NAME and explain/NAME; a name that no row has is a failure. README.md says what a row is. The last line
# is `N passed, M failed`.
. "$(dirname "${BASH_SOURCE[0]}")/../lib/common.sh" || exit 2
take_program "$1"
records=$root/tests/records
said_version=$(timeout 60 "$program" version 2>/dev/null </dev/null)
"$lib/gather_rows.sh" "$room/rows" || exit 2

# is_quick: returns whether this is the quick program, which says that it isn't proved, and has checks that take time.
is_quick() {
    [[ $said_version == *', not proved' ]]
}

# row NAME: runs a row.
row() {
    local at=$records/$1 input=/dev/null output=$records/$1.stdout words
    case $1 in
    apply/*) at=$here/$1 words=(apply "$at/base" "$at/delta") output=$at/stdout ;;
    check/*) words=(check "$at") ;;
    upgrade/*) words=(upgrade "$records/check/${1#*/}") ;;
    explain/*)
        IFS=. read -r -a words <<<"${1#*/}"
        words=(explain "$records/check/${words[0]}" "${words[@]:1}")
        ;;
    *)
        words=(replay) input=$room/rows/$1 output=$room/rows/$1.stdout
        if [ -e "$input.args" ]; then
            mapfile -t -O 1 words <"$input.args"
        fi
        ;;
    esac
    if [ ! -e "$output" ]; then
        fail "$1: there is no such row"
        return
    fi
    ending_of "$1"
    expect "$1" "$output" "$wanted" "$fault" "${words[@]}" <"$input"
}

if [ $# -gt 1 ]; then
    for name in "${@:2}"; do
        row "$name"
    done
    told_all
    exit
fi
mapfile -t names < <(cd "$room/rows" && printf '%s\n' *.stdout; cd "$here" && printf '%s\n' apply/*; cd "$records" && printf '%s\n' check/*.stdout upgrade/*.stdout explain/*.stdout)
for name in "${names[@]%.stdout}"; do
    row "$name"
done

examples=$root/examples
expect apply_example "$examples/full.m3u8" 0 '' apply "$examples/base.m3u8" "$examples/delta.m3u8" </dev/null

first=$examples/first.script
expect usage_of_no_word /dev/null 2 'llhls: usage' <"$first"
expect usage_of_another_word /dev/null 2 'llhls: usage' play <"$first"
expect usage_of_a_longer_word /dev/null 2 'llhls: usage' replays <"$first"
expect usage_of_an_empty_word /dev/null 2 'llhls: usage' '' <"$first"
expect usage_of_no_utf8 /dev/null 2 'llhls: usage' $'\xff' <"$first"
expect usage_of_apply_alone /dev/null 2 'llhls: usage' apply </dev/null
expect usage_of_apply_of_one_file /dev/null 2 'llhls: usage' apply "$first" </dev/null
expect usage_of_apply_of_three_files /dev/null 2 'llhls: usage' apply "$first" "$first" "$first" </dev/null
expect usage_of_replay_of_a_file /dev/null 2 'llhls: usage' replay "$first" </dev/null
expect read_of_a_folder /dev/null 4 'llhls: Read' replay <"$here"
recent=$here/apply/applies_to_a_recent_base
expect usage_of_check_alone /dev/null 2 'llhls: usage' check </dev/null
expect usage_of_check_of_two_files /dev/null 2 'llhls: usage' check "$first" "$first" </dev/null
expect usage_of_explain_alone /dev/null 2 'llhls: usage' explain </dev/null
for entry in x '' -1 0 03 +3 18446744073709551616; do
    expect "usage_of_explain_of_entry_$entry" /dev/null 2 'llhls: usage' explain "$records/check/a_held_request" "$entry" </dev/null
done
expect read_of_no_record_to_explain /dev/null 4 'llhls: Read' explain "$room/none" 1 </dev/null
# The quick program says that it isn't proved.
kit=$(grep -o 'rattle-kit-[a-z0-9]* logic [a-z0-9]*' "$root/README.md" | head -n 1)
claim="proved with $kit, or a later kit of the same logic"
if is_quick; then
    claim="built with $(tail -n 1 "$root/build/quick/of"), not proved"
fi
printf 'llhls %s\n%s\n' "$(<"$root/VERSION")" "$claim" >"$room/version"
expect version "$room/version" 0 '' version </dev/null
expect usage_of_version_of_a_file /dev/null 2 'llhls: usage' version "$first" </dev/null
expect usage_of_multivariant_alone /dev/null 2 'llhls: usage' multivariant </dev/null
expect usage_of_multivariant_of_no_rendition /dev/null 2 'llhls: usage' multivariant "$records/check/a_held_request" </dev/null
expect usage_of_multivariant_without_an_init /dev/null 2 'llhls: usage' multivariant "$records/check/a_held_request" hi </dev/null
expect read_of_no_record_of_multivariant /dev/null 4 'llhls: Read' multivariant "$room/none" hi=/dev/null </dev/null
expect read_of_no_init /dev/null 4 'llhls: Read' multivariant "$records/check/a_held_request" "hi=$room/none" </dev/null
expect multivariant_of_no_rendition_of_the_channel /dev/null 3 'llhls: NoRendition 1' multivariant "$records/check/a_held_request" no=/dev/null </dev/null
expect multivariant_of_no_section /dev/null 3 'llhls: BadInit 1' multivariant "$records/check/a_held_request" hi=/dev/null </dev/null
expect usage_of_upgrade_alone /dev/null 2 'llhls: usage' upgrade </dev/null
expect usage_of_upgrade_of_two_files /dev/null 2 'llhls: usage' upgrade "$first" "$first" </dev/null
expect read_of_no_record_to_upgrade /dev/null 4 'llhls: Read' upgrade "$room/none" </dev/null
expect read_of_no_record /dev/null 4 'llhls: Read' check "$room/none" </dev/null
expect read_of_a_folder_as_a_record /dev/null 4 'llhls: Read' check "$here" </dev/null
expect read_of_no_base /dev/null 4 'llhls: Read' apply "$room/none" "$recent/delta" </dev/null
expect read_of_a_folder_as_the_base /dev/null 4 'llhls: Read' apply "$here" "$recent/delta" </dev/null
expect read_of_no_delta /dev/null 4 'llhls: Read' apply "$recent/base" "$room/none" </dev/null
expect read_of_no_delta_after_a_bad_base /dev/null 4 'llhls: Read' apply /dev/null "$room/none" </dev/null

# test_long_records: tests records that are read in many pieces.
test_long_records() {
    # As many requests as can be held, and one more, which is Busy.
    {
        printf '%s\n' '#LLHLS-CHUNK 2' 'channel cam target=4 part=1000000 skip=24 window=36 renditions=hi first=0 start=0' 'at 0'
        awk 'BEGIN { for (n = 1; n <= 65536; n++) print "A " n " hi 0 0 - held"; print "A 65537 hi 0 0 - busy\n#END" }'
    } >"$room/busy"
    printf '%s\n' 'chain 1' 'entries 65537' 'items 0' 'first reading 0' 'last reading 0' 'answered at once 0' 'held and answered 0' 'timed out 0' 'given up 0' \
        'still held 65536' 'most held 65536' 'too far 0' 'not found 0' 'busy 1' >"$room/busy.stdout"
    expect explain_of_a_busy_answer "$room/busy.stdout" 0 '' explain "$room/busy" </dev/null

    # A record that is read in many pieces; and the same without the end of its last line, or with another line in the middle, before which and at which
    # entries are explained, and after which none is. A pipe can't be read again.
    printf '%s\n' 'entry 65537, at 0 ms: A 65537 hi 0 0 - busy' 'a request gets at once Busy: as many requests wait as may wait' >"$room/busy.last"
    expect explain_of_the_last_entry_of_many_pieces "$room/busy.last" 0 '' explain "$room/busy" 65537 </dev/null
    expect upgrade_of_many_pieces "$room/busy" 0 '' upgrade "$room/busy" </dev/null
    expect upgrade_of_a_pipe /dev/null 4 'llhls: Changed' upgrade /dev/stdin < <(cat "$records/check/a_held_request")
    echo 'ok 65537' >"$room/busy.checked"
    expect check_of_many_pieces "$room/busy.checked" 0 '' check "$room/busy" </dev/null
    truncate -s -1 "$room/busy"
    echo 'bad 65538 BadChunk' >"$room/busy.checked"
    expect check_of_a_last_line_that_is_cut "$room/busy.checked" 3 '' check "$room/busy" </dev/null
    expect upgrade_of_a_last_line_that_is_cut "$room/busy.checked" 3 '' upgrade "$room/busy" </dev/null
    expect explain_of_a_last_line_that_is_cut "$room/busy.checked" 3 '' explain "$room/busy" </dev/null
    expect explain_before_a_last_line_that_is_cut "$room/busy.last" 0 '' explain "$room/busy" 65537 </dev/null
    sed '40003s/.*/C 1/' "$room/busy" >"$room/busy.changed"
    echo 'bad 40001 Refused' >"$room/busy.checked"
    expect check_of_a_line_in_the_middle "$room/busy.checked" 3 '' check "$room/busy.changed" </dev/null
    expect explain_after_a_line_in_the_middle "$room/busy.checked" 3 '' explain "$room/busy.changed" 65537 </dev/null
    expect explain_of_a_line_in_the_middle "$room/busy.checked" 3 '' explain "$room/busy.changed" 40001 </dev/null
    printf '%s\n' 'entry 40000, at 0 ms: C 1' 'the clock is read' >"$room/busy.before"
    expect explain_before_a_line_in_the_middle "$room/busy.before" 0 '' explain "$room/busy.changed" 40000 </dev/null
}

if is_quick; then
    skip 'the quick program takes minutes for a record of 65,537 entries' 13
else
    test_long_records
fi

# expect_full NAME STATUS FAULT WORD..: runs the program with a full device as its standard output, and tests its status and its fault.
expect_full() {
    local status
    timeout 60 "$program" "${@:4}" >/dev/full 2>"$room/stderr"
    status=$?
    if all_of "$room/stderr" && [ "$status" = "$2" ] && is_said "$3"; then
        pass
    else
        fail "$1: status $status: $(<"$room/stderr")"
    fi
}

# What is written to a full device is lost; a script without answers is run to its end.
expect_full write_to_a_full_device 4 'llhls: Write' replay <"$first"
expect_full apply_to_a_full_device 4 'llhls: Write' apply "$recent/base" "$recent/delta" </dev/null
expect_full explain_to_a_full_device 4 'llhls: Write' explain "$records/check/a_held_request" 3 </dev/null
expect_full upgrade_to_a_full_device 4 'llhls: Write' upgrade "$records/check/a_held_request" </dev/null
expect_full nothing_to_write_to_a_full_device 0 '' replay <"$here/rows/only_ends_of_lines"

# Each answer is written as soon as it is known: the publisher reads it before it sends the next line.
if timeout 60 "$here/answers_at_once.sh" "$program"; then
    pass
else
    fail answers_at_once
fi
told_all
