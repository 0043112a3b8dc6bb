#!/usr/bin/env bash
# media.sh [COUNT [SIZE [PROGRAM]]]: measures media that is published to `llhls serve` (or `PROGRAM serve`) and asked for on loopback. It prints
#
# - for COUNT parts (10,000) of SIZE bytes (100,000) that are published one after another: after each tenth the server's resident memory and the bytes
# per second that it took; at the end how much more memory it has than at its start beside the media of its window, some 40 parts of a second each,
# and whether it still grows;
#
# - the same for 400 parts of 1,048,576 bytes, the most that a part can have, without the tenths;
#
# - of the program, of bench/yardstick.c, which has the same media in its memory and sends each answer by one writev, of nginx, if it is installed,
# which sends the same media from files (sendfile), and as a ratio: the bytes per second that they send if 1 and 64 kept connections ask for a part of
# 300,000 bytes, one of 1,000,000, and a segment of four parts with as many; and the processor time, including the kernel's, that the server takes for
# an answer. They are asked by turns. Numbers are the median of RUNS runs (5 if it isn't set) of LENGTH seconds (1); after it stand the smaller and the
# larger quartile. If the quartiles of one server are further apart than half its median, it prints "too short to tell" in place of the ratio.
#
# It judges nothing. At least 0.8 of the yardstick is wanted.
. "$(dirname "${BASH_SOURCE[0]}")/common.sh" || exit 2
take_program_or_proved "${3-}"
runs=${RUNS:-5}
length=${LENGTH:-1}
names=(program yardstick)
compile "$here/load.c" -pthread
compile "$here/yardstick.c" -pthread
channel='channel cam target=4 part=1000000 skip=24 window=36 renditions=hi first=0 start=0'

# grow COUNT SIZE: publishes COUNT parts of SIZE bytes to a server of its own.
grow() {
    serve "$program" 'workers 64' "$channel" >&2
    python3 "$here/media.py" grow "$publish_port" "$server" "$@"
    stop
}

# start NAME FILE: starts a server, and publishes the media that it is asked for.
start() {
    log=$room/$1.log
    serve "$2" 'workers 64' "$channel" >&2
    player_port[$1]=$port process[$1]=$server
    python3 "$here/media.py" fill "$publish_port" if:300000 if:1000000 i:250000 -:250000 -:250000 f:250000
}

# sent NAME CONNECTIONS FILE BYTES: prints of one run the megabytes per second, and the microseconds of processor time for an answer.
sent() {
    local before line
    before=$(ticks "$1")
    line=$(load media "${player_port[$1]}" "$2" "$length" "$3" "$4")
    echo "$line" | awk -v ticks=$(($(ticks "$1") - before)) -v hertz="$(getconf CLK_TCK)" -v length_s="$length" -v bytes="$4" '{
        print $1 * bytes / 1e6, ticks * 1e6 / hertz / ($1 * length_s) }'
}

grow "${1:-10000}" "${2:-100000}"
grow 400 1048576 | tail -n 3
start program "$program"
start yardstick "$room/yardstick"
if start_nginx 'sendfile on;' /cam/hi/s0.0.m4s /cam/hi/s1.0.m4s /cam/hi/s2.m4s; then
    names+=(nginx)
fi
echo "$runs runs each: the program, and others beside it"
while read -r file bytes told; do
    for connections in 1 64; do
        rm -f "$room"/*.runs
        for ((run = 0; run < runs; run++)); do
            for name in "${names[@]}"; do
                sent "$name" "$connections" "$file" "$bytes" >>"$room/$name.runs"
            done
        done
        compare "$told, $connections connections" MB/s 1 0 "${names[@]:1}"
        compare '    processor time for an answer' us 2 0 "${names[@]:1}"
    done
done <<END
s0.0.m4s 300000 a part of 300,000 bytes
s1.0.m4s 1000000 a part of 1,000,000 bytes
s2.m4s 1000000 a segment of 1,000,000 bytes
END
