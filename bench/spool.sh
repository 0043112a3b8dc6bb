#!/usr/bin/env bash
# spool.sh [PROGRAM]: measures what a spool costs in `llhls serve` (or `PROGRAM serve`) on loopback. One publisher sends parts of 100 kB as fast as they
# are answered, in turn to a server without a spool and to one with a spool in memory (/dev/shm), RUNS times (5 if it isn't set); it prints the medians
# of the parts answered in a second and of the time to an answer, and their ratio and difference. Then it starts a server with a spool of ITEMS items
# without bytes (1,000,000 if it isn't set), and prints how many it publishes again in a second, and its memory. It judges nothing.
. "$(dirname "${BASH_SOURCE[0]}")/common.sh" || exit 2
take_program_or_proved "${1-}"
channel='channel cam target=4 part=1000000 skip=24 window=36 renditions=hi first=0 start=0'
spool=$(mktemp -d -p /dev/shm) || exit 2
trap 'stop; rm -rf "$room" "$spool"' EXIT

# publish FILE [LINE]: publishes to a server with this line in its settings, and adds what the publisher prints to FILE.
publish() {
    serve "$program" 'workers 4' "${@:2}" "$channel" >&2
    python3 "$here/spool.py" "$publish_port" 1500 100000 >>"$1"
    stop
}

for ((run = 0; run < ${RUNS:-5}; run++)); do
    publish "$room/without"
    rm -rf "$spool/cam"
    publish "$room/with" "spool $spool"
done

# median FILE COLUMN: prints the median of a column.
median() {
    sort -n -k "$2" "$1" | awk -v column="$2" '{ value[NR] = $column } END { print value[int((NR + 1) / 2)] }'
}

awk -v rate="$(median "$room/without" 1)" -v spooled="$(median "$room/with" 1)" -v time="$(median "$room/without" 2)" -v later="$(median "$room/with" 2)" '
    BEGIN { printf "parts of 100 kB: %d a second without a spool, %d with one: %.2f; answered after %d and %d us: %d more\n", rate, spooled, spooled / rate, time, later, later - time }'

items=${ITEMS:-1000000}
rm -rf "$spool/cam" && mkdir "$spool/cam"
awk -v items="$items" -v channel="$channel" '
    BEGIN { print channel; for (n = 1; n <= items; n++) print n, "part hi 1000000", n % 4 ? "-" : "f", 0 }' >"$spool/cam/items"
began=$(date +%s%N)
serve "$program" 'workers 4' "spool $spool" "$channel" >&2
awk -v items="$items" -v took=$(($(date +%s%N) - began)) -v memory="$(awk '$1 == "VmHWM:" { print $2 }' "/proc/$server/status")" '
    BEGIN { printf "a start with %d items: %.2f s, %d items a second, %d MB at most\n", items, took / 1e9, items / (took / 1e9), memory / 1024 }'
