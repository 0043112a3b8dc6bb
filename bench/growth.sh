#!/usr/bin/env bash
# growth.sh: measures how costs grow. For each kind of work it runs a small and a large input, and prints the time per unit of both, less the start of
# the program, and their ratio: about 1 if the cost is linear. If a run takes less than five times what the start varies by, it prints "too short to
# tell". Times are the median of RUNS runs (9 if it isn't set). It judges nothing.
. "$(dirname "${BASH_SOURCE[0]}")/common.sh" || exit 2
take_program_or_proved
runs=${RUNS:-9}
settings='target=4 part=1000000 skip=24 window=36 renditions=hi first=0 start=0'
start_date='START-DATE="1970-01-01T00:00:00Z"'

# times WORD..: runs the program on the file `script`, and prints the median of the times in microseconds, and their smaller and larger quartile.
times() {
    measure "$room/script" "$room/answers" "$@" | spread
}

: >"$room/script"
read -r start smaller larger _ < <(times replay)
noise=$((larger - smaller))
echo "start: $start us, which varies by $noise us"

# compare NAME UNIT SMALL LARGE MAKE WORD..: makes both inputs by MAKE COUNT and measures them.
compare() {
    local name=$1 unit=$2 small=$3 large=$4 make=$5 first second
    shift 5
    "$make" "$small"
    read -r first _ < <(times "$@")
    "$make" "$large"
    read -r second _ < <(times "$@")
    awk -v name="$name" -v unit="$unit" -v small="$small" -v large="$large" -v first="$first" -v second="$second" -v start="$start" -v noise="$noise" '
        BEGIN {
            first -= start; second -= start
            printf "%s: ", name
            if (first < 5 * noise || second < 5 * noise) print "too short to tell"
            else printf "%.3f us a %s at %d, %.3f at %d, ratio %.2f\n", first / small, unit, small, second / large, large, (second / large) / (first / small)
        }'
}

# COUNT channels, and 40 parts for each, one channel after another.
channels() {
    awk -v n="$1" -v settings="$settings" 'BEGIN {
        for (c = 1; c <= n; c++) print "channel c" c " " settings
        for (p = 1; p <= 40; p++) for (c = 1; c <= n; c++) print "pub c" c " part hi 1000000 " (p % 4 == 0 ? "f" : "-")
    }' >"$room/script"
}

# COUNT date ranges, and a hundred playlists that list them.
listed() {
    awk -v n="$1" -v settings="$settings" -v date="$start_date" 'BEGIN {
        print "channel cam " settings
        for (i = 1; i <= n; i++) print "pub cam range hi ID=\"" i "\"," date ",DURATION=1.5"
        for (i = 1; i <= 100; i++) print "get " i " /cam/hi/live.m3u8"
    }' >"$room/script"
}

# COUNT date ranges that are added and removed, without any part.
removals() {
    awk -v n="$1" -v settings="$settings" -v date="$start_date" 'BEGIN {
        print "channel cam " settings
        for (i = 1; i <= n; i++) print "pub cam range hi ID=\"" i "\"," date "\npub cam unrange hi " i
    }' >"$room/script"
}

# A hundred lines with COUNT attributes each.
attributes() {
    awk -v n="$1" -v settings="$settings" -v date="$start_date" 'BEGIN {
        print "channel cam " settings
        for (i = 1; i <= 100; i++) {
            printf "pub cam range hi ID=\"%d\",%s", i, date
            for (a = 1; a <= n; a++) printf ",X-%d=1", a
            print ""
        }
    }' >"$room/script"
}

# A playlist with one date range of COUNT attributes, which is applied to itself.
long_line() {
    : >"$room/script"
    awk -v n="$1" -v date="$start_date" 'BEGIN {
        print "#EXTM3U\n#EXT-X-VERSION:9\n#EXT-X-TARGETDURATION:4"
        print "#EXT-X-SERVER-CONTROL:CAN-BLOCK-RELOAD=YES,PART-HOLD-BACK=3.000000,CAN-SKIP-UNTIL=24.000000"
        print "#EXT-X-PART-INF:PART-TARGET=1.000000\n#EXT-X-MEDIA-SEQUENCE:0\n#EXT-X-DISCONTINUITY-SEQUENCE:0"
        printf "#EXT-X-DATERANGE:ID=\"a\",%s", date
        for (a = 1; a <= n; a++) printf ",X-%d=1", a
        print "\n#EXT-X-PRELOAD-HINT:TYPE=PART,URI=\"s0.0.m4s\""
    }' >"$room/base"
}

compare 'publishing to channels' part 100 1000 channels replay
compare 'listing date ranges' 'date range' 100 1000 listed replay
compare 'removing date ranges' removal 1000 8000 removals replay
compare 'attributes of a line' attribute 100 4000 attributes replay
compare 'attributes of a line of a playlist' attribute 2000 16000 long_line apply "$room/base" "$room/base"
