#!/usr/bin/env bash
# apply.sh [SEGMENTS..]: measures `llhls apply`, which applies a delta update to a playlist of SEGMENTS segments (by default 100 and 20,000; 9 to
# 86,400), each of one part of a second. The update is 4 segments younger, and skips all but its last 7. For each number it prints the bytes per
# second, the bytes of both files, and the ratio to the first number's; then the peak memory, and the memory that a byte takes. Times are the median
# of RUNS runs (99 if it isn't set), less that of as many runs that apply a playlist without segments to itself, which is the start of the program,
# each before one of the others; after them stand the slower and the faster quartile. Memory is a median too, and for a byte less that of the start.
# With few segments the start outweighs the rest, and the numbers say little. It judges nothing.
. "$(dirname "${BASH_SOURCE[0]}")/common.sh" || exit 2
take_program_or_proved
runs=${RUNS:-99}
if [ "$#" = 0 ]; then
    set -- 100 20000
fi
mkdir "$room/none" "$room/some"

# make FOLDER SEGMENTS NEW WINDOW: makes base, delta and wanted there: a playlist after SEGMENTS segments, then the update and the playlist after NEW
# more.
make() {
    awk -v segments="$2" -v new="$3" -v window="$4" '
        function publish(count) {
            while (count-- > 0)
                print "pub cam part hi 1000000 if"
        }
        BEGIN {
            print "channel cam target=1 part=1000000 skip=6 window=" window " renditions=hi first=0 start=0"
            publish(segments)
            print "get 1 /cam/hi/live.m3u8"
            publish(new)
            print "get 2 /cam/hi/live.m3u8?_HLS_skip=YES"
            print "get 3 /cam/hi/live.m3u8"
        }' >"$room/script"
    "$program" replay <"$room/script" >"$room/answers"
    awk -v folder="$1" '
        BEGIN { split("base delta wanted", name) }
        /^reply / { file = folder "/" name[$2] }
        !/^(ok|reply) / { print >file }' "$room/answers"
}

# apply: runs the program without segments and with them, by turns.
apply() {
    local run folder
    rm -f "$room"/*/measured
    for ((run = 0; run < runs; run++)); do
        for folder in "$room/none" "$room/some"; do
            runs=1 measure /dev/null "$folder/applied" apply "$folder/base" "$folder/delta" >>"$folder/measured"
        done
    done
}

make "$room/none" 0 0 9
first=
for segments in "$@"; do
    make "$room/some" "$segments" 4 "$segments"
    grep -q "^#EXT-X-SKIP:SKIPPED-SEGMENTS=$((segments - 7))\$" "$room/some/delta" || wrong "of $segments segments the update does not skip all but 7"
    apply
    shown=$(grep -c '^#EXTINF:' "$room/some/applied" || true)
    if [ "$shown" != "$segments" ] || ! cmp "$room/some/applied" "$room/some/wanted" >&2; then
        wrong "of $segments segments $shown were shown, or others"
    fi
    bytes=$(cat "$room/some/base" "$room/some/delta" | wc -c)
    start=$(median <"$room/none/measured")
    read -r time faster slower _ < <(spread <"$room/some/measured")
    first=${first:-$bytes $time $start}
    awk -v segments="$segments" -v bytes="$bytes" -v median="$time" -v slower="$slower" -v faster="$faster" \
        -v peak="$(median 2 <"$room/some/measured")" -v least="$(median 2 <"$room/none/measured")" -v start="$start" -v first="$first" '
        # (a run that was faster than the start counts as one of a microsecond)
        function speed(bytes, time, start) { return bytes * 1e6 / (time > start ? time - start : 1) }
        BEGIN {
            split(first, of)
            printf "%d segments, %d bytes: %.0f bytes/s", segments, bytes, speed(bytes, median, start)
            printf " (%.0f to %.0f)", speed(bytes, slower, start), speed(bytes, faster, start)
            printf ", ratio %.2f; ", speed(bytes, median, start) / speed(of[1], of[2], of[3])
            printf "start %d us, %d KiB; peak %d KiB: %.1f bytes a byte\n", start, least, peak, (peak - least) * 1024 / bytes
        }'
done
