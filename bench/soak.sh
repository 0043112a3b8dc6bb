#!/usr/bin/env bash
# soak.sh [SECONDS [PROGRAM]]: for SECONDS (by default 60) 64 kept connections ask `llhls serve` (or `PROGRAM serve`) on loopback for the present
# playlist, while 64 others wait for one part after another, and are connected anew in each tenth of the time. After each tenth it prints the server's
# resident memory. The last line says whether that still grows: whether it is larger after the last tenth than at half time by more than a hundredth
# and 256 KB. Environment variables that an allocator reads reach the server. It judges nothing.
. "$(dirname "${BASH_SOURCE[0]}")/common.sh" || exit 2
length=${1:-60}
take_program_or_proved "${2-}"
compile "$here/load.c" -pthread
serve "$program" 'workers 256' 'channel cam target=4 part=1000000 skip=24 window=36 renditions=hi first=0 start=0' >&2

# resident: prints the server's resident memory in KB.
resident() {
    awk '/^VmRSS:/ { print $2 }' "/proc/$server/status"
}

# wait_for_parts: 64 connections wait for a part, again and again, until `room/stop` is there.
wait_for_parts() {
    while [ ! -e "$room/stop" ]; do
        timeout 60 "$room/load" held "$port" "$publish_port" 64 4 "$server" >/dev/null
    done
}

echo "at the start: $(resident) KB"
half=0
for tenth in 1 2 3 4 5 6 7 8 9 10; do
    rm -f "$room/stop"
    wait_for_parts &
    held=$!
    answers=$(timeout $((length + 60)) "$room/load" present "$port" 64 "$(awk -v n="$length" 'BEGIN { print n / 10 }')")
    : >"$room/stop"
    wait "$held"
    now=$(resident)
    echo "after $tenth tenths of $length s: $now KB, ${answers%% *} answers/s"
    if [ "$tenth" = 5 ]; then
        half=$now
    fi
done
if [ $((now - half)) -gt $((half / 100 > 256 ? half / 100 : 256)) ]; then
    echo "it still grows: by $((now - half)) KB since half time"
else
    echo "it grows no more: $((now - half)) KB since half time"
fi
