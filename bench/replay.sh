#!/usr/bin/env bash
# replay.sh [PARTS..]: measures `llhls replay` of a script that publishes PARTS parts (by default 10,000 and 100,000), four to a segment, and asks for
# the playlist once, at the end, which shows the last nine segments. For each number it prints the events per second, and their ratio to the first
# number's; then the peak memory, and the memory that a part takes, for which it leaves out the request. Times are the median of RUNS runs (9 if it
# isn't set), less that of a script without parts, which is the start of the program; after them stand the slowest and the fastest run. Memory is a
# median too, and for a part less that of the script without parts. With few parts the start outweighs the rest, and the numbers say little. It judges
# nothing.
. "$(dirname "${BASH_SOURCE[0]}")/common.sh" || exit 2
take_program_or_proved
runs=${RUNS:-9}
if [ "$#" = 0 ]; then
    set -- 10000 100000
fi

# publish PARTS: prints a script of PARTS parts without a request.
publish() {
    awk -v parts="$1" 'BEGIN {
        print "channel cam target=1 part=250000 skip=6 window=9 renditions=hi first=0 start=0"
        for (n = 1; n <= parts; n++)
            print "pub cam part hi 250000 " (n % 4 == 1 ? "i" : n % 4 == 0 ? "f" : "-")
    }'
}

# replay SCRIPT: sets `time`, `fastest` and `slowest` to the median, the least and the largest time in microseconds, and `peak` to the median of the
# peak memory in KiB.
replay() {
    replayed "$1" >"$room/measured"
    read -r time _ _ fastest slowest < <(spread <"$room/measured")
    peak=$(median 2 <"$room/measured")
}

publish 0 >"$room/script"
replay "$room/script"
start=$time
least=$peak
echo "start: $start us, $least KiB"
first=
for parts in "$@"; do
    publish "$parts" >"$room/script"
    replay "$room/script"
    kept=$peak
    echo 'get 1 /cam/hi/live.m3u8' >>"$room/script"
    replay "$room/script"
    accepted=$(answers '^ok ')
    shown=$(answers '^#EXTINF:')
    if [ "$accepted" != "$parts" ] || [ "$shown" != $((parts / 4 < 9 ? parts / 4 : 9)) ]; then
        wrong "of $parts parts $accepted were accepted, and $shown segments were shown"
    fi
    first=${first:-$parts $time}
    awk -v parts="$parts" -v median="$time" -v slowest="$slowest" -v fastest="$fastest" -v peak="$peak" \
        -v kept="$kept" -v least="$least" -v start="$start" -v first="$first" '
        # (a run that was faster than the start counts as one of a microsecond)
        function speed(events, time) { return events * 1e6 / (time > start ? time - start : 1) }
        BEGIN {
            split(first, of)
            printf "%d parts: %d events/s", parts, speed(parts + 1, median)
            printf " (%d to %d)", speed(parts + 1, slowest), speed(parts + 1, fastest)
            printf ", ratio %.2f; ", speed(parts + 1, median) / speed(of[1] + 1, of[2])
            printf "peak %d KiB, %d without the request: %.1f bytes a part\n", peak, kept, (kept - least) * 1024 / parts
        }'
done
