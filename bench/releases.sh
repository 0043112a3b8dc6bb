#!/usr/bin/env bash
# releases.sh [PROGRAM]: measures what an item costs that releases a held request, in a channel of one rendition and of eight, each with a full window
# and 0 or 100 date ranges. A script holds a request for the next part and publishes it, 2,000 times, with every fourth part finishing its segment. It
# prints the microseconds for an item with its request, less those of the same script before these, and the ratio of eight renditions to one. Times
# are the median of RUNS runs (9 if it isn't set). It judges nothing.
. "$(dirname "${BASH_SOURCE[0]}")/common.sh" || exit 2
take_program_or_proved "$@"
runs=${RUNS:-9}
items=2000

# releasing RENDITIONS RANGES ITEMS: prints such a script.
releasing() {
    awk -v renditions="$1" -v ranges="$2" -v items="$3" 'BEGIN {
        for (r = 1; r <= renditions; r++) names = names (r > 1 ? "," : "") "r" r
        print "channel cam target=4 part=1000000 skip=24 window=36 renditions=" names " first=0 start=0"
        for (r = 1; r <= renditions; r++) {
            for (i = 1; i <= ranges; i++) print "pub cam range r" r " ID=\"" i "\",START-DATE=\"1970-01-01T00:00:00Z\",DURATION=1.5"
            for (p = 1; p <= 40; p++) print "pub cam part r" r " 1000000 " (p % 4 == 0 ? "f" : "-")
        }
        for (p = 0; p < items; p++) {
            print "get " p + 1 " /cam/r1/live.m3u8?_HLS_msn=" 10 + int(p / 4) "&_HLS_part=" p % 4 "&_HLS_skip=v2"
            print "pub cam part r1 1000000 " (p % 4 == 3 ? "f" : "-")
        }
    }' >"$room/script"
}

# an_item RENDITIONS RANGES: prints the microseconds of an item with its request.
an_item() {
    local all start
    releasing "$1" "$2" 0
    read -r start _ < <(measure "$room/script" "$room/answers" replay | spread)
    releasing "$1" "$2" "$items"
    read -r all _ < <(measure "$room/script" "$room/answers" replay | spread)
    [ "$(grep -c '^reply .* 200 ' "$room/answers")" = "$items" ] || wrong "not every request was answered by a playlist"
    awk -v all="$all" -v start="$start" -v items="$items" 'BEGIN { printf "%.1f", (all - start) / items }'
}

for ranges in 0 100; do
    one=$(an_item 1 "$ranges")
    eight=$(an_item 8 "$ranges")
    echo "$ranges date ranges a rendition: $one us an item with one rendition, $eight with eight, ratio $(awk -v a="$eight" -v b="$one" 'BEGIN { printf "%.2f", a / b }')"
done
