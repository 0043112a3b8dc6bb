#!/usr/bin/env bash
# large.sh PROGRAM: tests scripts and playlists at the limits of size, since a program that fails at some size could pass all small rows. What is
# wanted is made here by awk, from the rules. The last line is `N passed, M failed`.
. "$(dirname "${BASH_SOURCE[0]}")/../lib/common.sh" || exit 2
take_program "$1"

# run NAME STATUS FAULT WORD..: runs the program on the file `script`, and compares what it writes with the file `wanted`.
run() {
    expect "$1" "$room/wanted" "${@:2}" <"$room/script"
}

settings='channel cam target=4 part=1000000 skip=24 window=36 renditions=hi first=0 start=0'

# playlist LINES: prints the playlist of a rendition without segments under these settings, with LINES, which are those of date ranges, in it.
playlist() {
    printf '#EXTM3U\n#EXT-X-VERSION:10\n#EXT-X-TARGETDURATION:4\n'
    printf '#EXT-X-SERVER-CONTROL:CAN-BLOCK-RELOAD=YES,PART-HOLD-BACK=3.000000,CAN-SKIP-UNTIL=24.000000,CAN-SKIP-DATERANGES=YES\n'
    printf '#EXT-X-PART-INF:PART-TARGET=1.000000\n#EXT-X-MEDIA-SEQUENCE:0\n#EXT-X-DISCONTINUITY-SEQUENCE:0\n'
    printf '%s' "$1"
    printf '#EXT-X-PRELOAD-HINT:TYPE=PART,URI="s0.0.m4s"\n'
}

# reply ID FILE: prints a reply with the text of a file.
reply() {
    printf 'reply %d 200 %d\n' "$1" "$(wc -c <"$2")"
    cat "$2"
}

# A line of 65,536 bytes that adds a date range, and one of a byte more.
range='ID="a",START-DATE="1970-01-01T00:00:00Z",X-A="'
space=$((65536 - 17 - ${#range} - 1))
line="pub cam range hi $range$(many "$space")\""
printf '%s\n%s\nget 1 /cam/hi/live.m3u8\n' "$settings" "$line" >"$room/script"
playlist "#EXT-X-DATERANGE:$range$(many "$space")\""$'\n' >"$room/text"
{ echo 'ok 1'; reply 1 "$room/text"; } >"$room/wanted"
run date_range_line_of_65536_bytes 0 '' replay
printf '%s\n%sx"\n' "$settings" "${line%\"}" >"$room/script"
: >"$room/wanted"
run date_range_line_of_65537_bytes 3 'llhls: LineTooLong 2' replay

# Lists of 200 and of 8,000 attributes, and the same lists with one attribute more, whose name is there already.
for count in 200 8000; do
    list='ID="a",START-DATE="1970-01-01T00:00:00Z"'$(awk -v n="$count" 'BEGIN { for (i = 1; i <= n; i++) printf ",X-%d=1", i }')
    printf '%s\npub cam range hi %s,X-1=2\npub cam range hi %s\nget 1 /cam/hi/live.m3u8\n' "$settings" "$list" "$list" >"$room/script"
    if [ "$count" = 200 ]; then
        playlist "#EXT-X-DATERANGE:$list"$'\n' >"$room/text"
        { printf 'no 9 BadAttribute\nok 1\n'; reply 1 "$room/text"; } >"$room/wanted"
        run "list_of_${count}_attributes" 0 '' replay
    else
        # The line is longer than a line of a script can be.
        : >"$room/wanted"
        run "list_of_${count}_attributes" 3 'llhls: LineTooLong 2' replay
    fi
done

# A hundred channels.
awk 'BEGIN {
    for (c = 1; c <= 100; c++) printf "channel c%d target=4 part=1000000 skip=24 window=36 renditions=hi first=0 start=0\n", c
    for (c = 100; c >= 1; c--) printf "pub c%d range hi ID=\"%d\",START-DATE=\"1970-01-01T00:00:00Z\"\n", c, c
    for (c = 1; c <= 100; c++) printf "get %d /c%d/hi/live.m3u8\n", c, c
}' >"$room/script"
{
    for ((c = 1; c <= 100; c++)); do echo 'ok 1'; done
    for ((c = 1; c <= 100; c++)); do
        playlist "#EXT-X-DATERANGE:ID=\"$c\",START-DATE=\"1970-01-01T00:00:00Z\""$'\n' >"$room/text"
        reply "$c" "$room/text"
    done
} >"$room/wanted"
run a_hundred_channels 0 '' replay

# As many requests wait as can wait in a channel; the next one is Busy. Once one is closed, one more waits. At the end a reading of the clock answers
# them all, in order of asking.
awk -v settings="$settings" 'BEGIN {
    target = "/cam/hi/live.m3u8?_HLS_msn=1"
    print settings "\npub cam part hi 1000000 i"
    for (id = 1; id <= 65537; id++) print "get " id " " target
    print "close 1\nget 65538 " target "\nget 65539 " target "\nclock 12000"
}' >"$room/script"
{
    printf 'ok 1\nreply 65537 503 Busy\nreply 65539 503 Busy\n'
    seq -f 'reply %.0f 503 Timeout' 2 65536
    echo 'reply 65538 503 Timeout'
} >"$room/wanted"
run as_many_wait_as_may 0 '' replay

# day COUNT SKIPPED: prints the playlist of a window of a day after COUNT segments of a second each, of which a delta update skips SKIPPED.
day() {
    awk -v count="$1" -v skipped="$2" 'BEGIN {
        print "#EXTM3U\n#EXT-X-VERSION:10\n#EXT-X-TARGETDURATION:1"
        print "#EXT-X-SERVER-CONTROL:CAN-BLOCK-RELOAD=YES,PART-HOLD-BACK=3.000000,CAN-SKIP-UNTIL=6.000000,CAN-SKIP-DATERANGES=YES"
        print "#EXT-X-PART-INF:PART-TARGET=1.000000"
        first = count > 86400 ? count - 86400 : 0
        printf "#EXT-X-MEDIA-SEQUENCE:%d\n#EXT-X-DISCONTINUITY-SEQUENCE:0\n", first
        if (skipped) printf "#EXT-X-SKIP:SKIPPED-SEGMENTS=%d\n", skipped
        else print "#EXT-X-MAP:URI=\"init0.mp4\""
        for (s = first + skipped; s < count; s++) {
            printf "#EXT-X-PROGRAM-DATE-TIME:1970-01-%02dT%02d:%02d:%02d.000Z\n", 1 + s / 86400, s / 3600 % 24, s / 60 % 60, s % 60
            if (count - 1 - s < 3) printf "#EXT-X-PART:DURATION=1.000000,URI=\"s%d.0.m4s\",INDEPENDENT=YES\n", s
            printf "#EXTINF:1.000000,\ns%d.m4s\n", s
        }
        printf "#EXT-X-PRELOAD-HINT:TYPE=PART,URI=\"s%d.0.m4s\"\n", count
    }'
}

# A window of a day of segments of a second, and its delta update: 7 MB. Six seconds later, `apply` makes the new playlist of the old one.
day 86402 0 >"$room/base"
day 86408 0 >"$room/full"
day 86408 86393 >"$room/delta"
awk 'BEGIN {
    print "channel cam target=1 part=1000000 skip=6 window=86400 renditions=hi first=0 start=0"
    for (s = 1; s <= 86408; s++) {
        print "pub cam part hi 1000000 if"
        if (s == 86402) print "get 1 /cam/hi/live.m3u8"
    }
    print "get 2 /cam/hi/live.m3u8?_HLS_skip=YES\nget 3 /cam/hi/live.m3u8"
}' >"$room/script"
{
    seq -f 'ok %.0f' 1 86402
    reply 1 "$room/base"
    seq -f 'ok %.0f' 86403 86408
    reply 2 "$room/delta"
    reply 3 "$room/full"
} >"$room/wanted"
run a_day_of_segments 0 '' replay
: >"$room/script"
cp "$room/full" "$room/wanted"
run a_delta_update_of_a_day 0 '' apply "$room/base" "$room/delta"

# Ten thousand segments of four parts: the window shows the last nine, and the last three of these list their parts.
awk -v settings="$settings" 'BEGIN {
    print settings
    for (part = 0; part < 40000; part++) print "pub cam part hi 1000000 " (part % 4 == 0 ? "i" : part % 4 == 3 ? "f" : "-")
    print "get 1 /cam/hi/live.m3u8"
}' >"$room/script"
awk 'BEGIN {
    print "#EXTM3U\n#EXT-X-VERSION:10\n#EXT-X-TARGETDURATION:4"
    print "#EXT-X-SERVER-CONTROL:CAN-BLOCK-RELOAD=YES,PART-HOLD-BACK=3.000000,CAN-SKIP-UNTIL=24.000000,CAN-SKIP-DATERANGES=YES"
    print "#EXT-X-PART-INF:PART-TARGET=1.000000\n#EXT-X-MEDIA-SEQUENCE:9991\n#EXT-X-DISCONTINUITY-SEQUENCE:0\n#EXT-X-MAP:URI=\"init0.mp4\""
    for (s = 9991; s < 10000; s++) {
        time = 4 * s
        printf "#EXT-X-PROGRAM-DATE-TIME:1970-01-01T%02d:%02d:%02d.000Z\n", time / 3600, time / 60 % 60, time % 60
        for (part = 0; part < 4 && s > 9996; part++) {
            printf "#EXT-X-PART:DURATION=1.000000,URI=\"s%d.%d.m4s\"%s\n", s, part, part ? "" : ",INDEPENDENT=YES"
        }
        printf "#EXTINF:4.000000,\ns%d.m4s\n", s
    }
    print "#EXT-X-PRELOAD-HINT:TYPE=PART,URI=\"s10000.0.m4s\""
}' >"$room/text"
{
    seq -f 'ok %.0f' 1 40000
    reply 1 "$room/text"
} >"$room/wanted"
run ten_thousand_segments 0 '' replay

# URIs of 60,000 bytes.
uri=$(many 60000)
day 3 0 | sed -e "s|s1.m4s|$uri|" -e "s|init0.mp4|$uri|" -e "s|s2.0.m4s|$uri|" -e "s|s3.0.m4s|$uri|" >"$room/base"
cp "$room/base" "$room/wanted"
run uris_of_60000_bytes 0 '' apply "$room/base" "$room/base"

told_all
