#!/usr/bin/env bash
# push.sh [PROGRAM]: measures `llhls push` (or `PROGRAM push`) of a stream to an origin on loopback that skips what it gets: with fragments that are
# whole parts of 1,000,000 bytes (1,000 of them), and with fragments that are frames of 20,000 bytes, 25 of which make a part (20,000 of them). For
# each it prints the megabytes of input per second of its processor time and of the clock, and those of `cat` to nowhere; numbers are the median of
# RUNS runs (5 if it isn't set). Then it prints the peak memory. It judges nothing. At least 1,000 MB per second of processor time are wanted of
# parts, and 200 of frames.
. "$(dirname "${BASH_SOURCE[0]}")/common.sh" || exit 2
take_program_or_proved "${1-}"
runs=${RUNS:-5}

# timed WORD..: runs a command on the input, and prints the microseconds that it took, those of a processor, and the KiB of memory.
timed() {
    python3 -c '
import os, sys, time
began = time.monotonic()
child = os.fork()
if child == 0:
    os.dup2(os.open("/dev/null", os.O_WRONLY), 1)
    os.execvp(sys.argv[1], sys.argv[1:])
status, used = os.wait4(child, 0)[1:]
if status:
    sys.exit(1)
print(int((time.monotonic() - began) * 1e6), int((used.ru_utime + used.ru_stime) * 1e6), used.ru_maxrss)' "$@"
}

# pushed NAME COUNT BYTES MILLIS: measures a stream of COUNT fragments of BYTES bytes and MILLIS milliseconds each.
pushed() {
    local run size
    size=$(python3 "$here/push.py" input "${@:2}" | wc -c)
    : >"$room/push.runs" >"$room/cat.runs"
    for ((run = 0; run < runs; run++)); do
        rm -f "$room/port"
        python3 "$here/push.py" origin "$room/port" &
        until [ -s "$room/port" ]; do sleep 0.05; done
        python3 "$here/push.py" input "${@:2}" | timed "$program" push "127.0.0.1:$(<"$room/port")" cam hi part=500000 segment=2000000 >>"$room/push.runs"
        wait
        python3 "$here/push.py" input "${@:2}" | timed cat >>"$room/cat.runs"
    done
    awk -v name="$1" -v size="$size" -v wall="$(median 1 <"$room/push.runs")" -v used="$(median 2 <"$room/push.runs")" -v peak="$(median 3 <"$room/push.runs")" \
        -v plain="$(median 2 <"$room/cat.runs")" 'BEGIN {
            printf "%s: %d MB in a second of a processor, %d of the clock; cat %d; peak %d KiB\n", name, size / used, size / wall, size / plain, peak }'
}

pushed 'fragments that are parts' 1000 1000000 500
pushed 'a fragment a frame' 20000 20000 20
