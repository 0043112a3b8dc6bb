#!/usr/bin/env bash
# rotate.sh [PROGRAM]: measures how long a publisher waits while a full record is handed out, in `llhls serve` (or `PROGRAM serve`) on loopback. One
# publisher sends a part as soon as the last one is answered, until RECORDS records (4 if it isn't set) of 65,536 items and readings are full; once
# without a line `record` in the settings, so that a record is made and dropped, and once with it, so that it goes to a file in a temporary folder.
# For each it prints the median time to an answer, the 99th percentile, and the longest that the answers at a full record took: of one record as the
# median, and of all. It judges nothing.
. "$(dirname "${BASH_SOURCE[0]}")/common.sh" || exit 2
take_program_or_proved "${1-}"
records=${RECORDS:-4}

# publish [LINE]: runs a server with this line in its settings, and prints the times of the answers of its publisher.
publish() {
    serve "$program" 'workers 4' "$@" 'channel cam target=4 part=1000000 skip=24 window=36 renditions=hi first=0 start=0' >&2
    python3 "$here/rotate.py" "$publish_port" "$records" >"$room/times"
    stop
}

# places_in_memory: prints the numbers of the items that may have met a full record, a first and a last one for each record. Readings count as well,
# and there are about four of them a second.
places_in_memory() {
    awk '{ since[NR] = $1 } NR % 65536 == 0 { print NR + 1 - int(5 * $1 + 10), NR + 1 }' "$room/times"
}

# places_in_file: prints the same from the record itself. A record that the clock handed out isn't full.
places_in_file() {
    awk '
        /^P / { items++ }
        /^[PAC] / { calls++ }
        /^#END$/ { if (calls == 65536) print items + 1, items + 1; calls = 0 }' "$room/record.cam"
}

# tell NAME: prints the times of the answers, and those of the answers at the places on standard input.
tell() {
    awk '
        FILENAME == "-" {
            longest = 0
            for (i = $1; i <= $2; i++) if (took[i] > longest) longest = took[i]
            if (longest > 0) print longest
            next
        }
        { took[FNR] = $2 }' "$room/times" - >"$room/full"
    if [ -s "$room/full" ]; then
        spread <"$room/full" | awk -v name="$1" -v count="$(wc -l <"$room/full")" '{
            printf "%s: a publish waits %.1f ms behind a rotation, the longest of %d waits %.1f ms", name, $1 / 1000, count, $5 / 1000
        }'
    else
        printf '%s: no record was full' "$1"
    fi
    sort -n -k 2 "$room/times" | awk '
        { took[NR] = $2 }
        END { printf "; others: half within %.0f us, 99 of 100 within %.0f us\n", took[int((NR + 1) / 2)], took[int(NR * 0.99)] }'
}

publish
places_in_memory | tell 'to memory'
publish "record $room/record"
places_in_file | tell 'to a file'
