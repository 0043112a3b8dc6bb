#!/usr/bin/env bash
# check.sh [ENTRIES..]: measures `llhls check`, `llhls explain` and `llhls upgrade` with records of ENTRIES entries (by default 100,000 and 1,000,000;
# at least 40), in which each part of a second is awaited by two players, one of whom asks for a delta update, and asked for by a third who waits for
# nothing; then with records of ten times as many entries that are requests for the playlist as it is, after ten segments; then with requests after
# windows of 10, 100 and 1,000 segments, which should take the same time. Each record is in format 1, and is written in format 2 too, but for the last
# three. For each it prints the entries and the bytes per second of the commands, and the ratio to the first number's; then the peak memory, and the
# memory that a byte of the record takes. Times are the median of RUNS runs (9 if it isn't set). It judges nothing.
. "$(dirname "${BASH_SOURCE[0]}")/common.sh" || exit 2
take_program_or_proved
runs=${RUNS:-9}
if [ "$#" = 0 ]; then
    set -- 100000 1000000
fi

# make ENTRIES: makes a record of at least ENTRIES entries, in chunks of 10,000 or a little more.
make() {
    awk -v entries="$1" '
        function begin() {
            print "#LLHLS-CHUNK 1"
            print "channel cam target=4 part=1000000 skip=24 window=36 renditions=hi first=0 start=0"
            print "at " made + 0
            begun = made
        }
        function add(entry) { print entry; made++ }
        BEGIN {
            begin()
            for (item = 0; made < entries; item++) {
                msn = int(item / 4)
                part = item % 4
                add("A " (ask + 1) " hi " msn " " part " - held")
                add("A " (ask + 2) " hi " msn " " part " YES held")
                add("A " (ask + 3) " hi - - - text " item)
                add("P part hi 1000000 " (part == 0 ? "i" : part == 3 ? "f" : "-"))
                add("G " (ask + 1) " text " (item + 1))
                add("G " (ask + 2) " text " (item + 1))
                add("C " (item + 1) * 1000)
                ask += 3
                if (made - begun >= 10000) {
                    print "#END"
                    begin()
                }
            }
            print "#END"
            print made >"/dev/stderr"
        }'
}

# make_plain ENTRIES [SEGMENTS]: makes a record, in one chunk, of SEGMENTS segments (by default ten), all of which are in the window if they are ten
# or more, and ENTRIES requests for the playlist as it is.
make_plain() {
    awk -v entries="$1" -v segments="${2:-10}" 'BEGIN {
        print "#LLHLS-CHUNK 1"
        print "channel cam target=4 part=1000000 skip=24 window=" 4 * segments " renditions=hi first=0 start=0"
        print "at 0"
        parts = 4 * segments
        for (part = 0; part < parts; part++) print "P part hi 1000000 " (part % 4 == 0 ? "i" : part % 4 == 3 ? "f" : "-")
        for (ask = 1; ask <= entries; ask++) print "A " ask " hi - - - text " parts
        print "#END"
        print entries + parts >"/dev/stderr"
    }'
}

# tell COMMAND ENTRIES BYTES: runs a command on the record again and again, and prints what that takes.
declare -A first=()
tell() {
    local run time
    rm -f "$room/measured"
    for ((run = 0; run < runs; run++)); do
        runs=1 measure /dev/null "$room/answer" "$1" "$room/record" >>"$room/measured"
    done
    time=$(median <"$room/measured")
    first[$1]=${first[$1]:-$2 $time}
    awk -v command="$1" -v made="$2" -v bytes="$3" -v median="$time" -v peak="$(median 2 <"$room/measured")" -v first="${first[$1]}" '
        BEGIN {
            split(first, of)
            printf "%s, %d entries, %d bytes: %.0f entries/s, %.0f bytes/s, ratio %.2f; ", command, made, bytes, made * 1e6 / median, bytes * 1e6 / median, (made / median) / (of[1] / of[2])
            printf "peak %d KiB: %.1f bytes a byte\n", peak, peak * 1024 / bytes
        }'
}

# all MAKE ENTRIES: makes a record, has it checked, summarized and written in format 2, and checks it in that format too.
all() {
    local made bytes
    "$1" "$2" >"$room/record" 2>"$room/made"
    made=$(<"$room/made")
    bytes=$(wc -c <"$room/record")
    tell check "$made" "$bytes"
    [ "$(<"$room/answer")" = "ok $made" ] || wrong "of $made entries: $(<"$room/answer")"
    tell explain "$made" "$bytes"
    grep -qx "entries $made" "$room/answer" || wrong "of $made entries: $(<"$room/answer")"
    tell upgrade "$made" "$bytes"
    [ "$("$program" check "$room/answer")" = "ok $made" ] || wrong "of $made entries in format 2: $("$program" check "$room/answer")"
}

for entries in "$@"; do
    all make "$entries"
done
echo 'requests for the playlist as it is:'
first=()
for entries in "$@"; do
    all make_plain $((10 * entries))
done
echo 'requests for the playlist as it is, after 10, 100 and 1,000 segments:'
first=()
for segments in 10 100 1000; do
    make_plain $((10 * $1)) "$segments" >"$room/record" 2>"$room/made"
    tell check "$(<"$room/made")" "$(wc -c <"$room/record")"
    [ "$(<"$room/answer")" = "ok $(<"$room/made")" ] || wrong "after $segments segments: $(<"$room/answer")"
done
