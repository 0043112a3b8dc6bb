#!/usr/bin/env bash
# serve.sh [PROGRAM]: puts one load on `llhls serve` (or `PROGRAM serve`) and on plain servers, by turns, all on loopback and after the same 44 parts:
# bench/yardstick.c with a thread for each connection, and bench/held.c with a single thread. It prints, of each and as a ratio to the program's,
#
# - if 1, 64 and 512 kept connections ask for the present playlist, from half of the processors: the answers per second, the 50th and 99th percentile
# of the time to an answer, and the processor time, including the kernel's, that the server takes for an answer (which other work on the machine
# disturbs less). If nginx is installed, it is asked for the same playlist, as a file, by the same connections;
#
# - if 100, 1,000, 4,000, 10,000 and 19,000 connections of a server that has just started wait for a part (fewer if `ulimit -n` doesn't allow as many,
# and it says so; the plain threads up to 4,000): the milliseconds from its publication to the first, the median and the last answer, and until the
# publisher has its `ok`; the processor time for an answer, with what accepting the connection and reading the request take; how much memory the
# server has more than before for each request that waits, and the most in all; and how many threads it has then.
#
# The program has `workers 4096`. Numbers are the median of RUNS runs (5 if it isn't set), of LENGTH seconds (1) or of 5 parts each; after it stand the
# smaller and the larger quartile. If the quartiles of one server are further apart than half its median, it prints "too short to tell" in place of the
# ratio. It judges nothing.
. "$(dirname "${BASH_SOURCE[0]}")/common.sh" || exit 2
take_program_or_proved "${1-}"
runs=${RUNS:-5}
length=${LENGTH:-1}
parts=44
asked=(program yardstick)
declare -A publisher_port file
compile "$here/load.c" -pthread
compile "$here/yardstick.c" -pthread
compile "$here/held.c"
file=([program]=$program [yardstick]=$room/yardstick [held]=$room/held)
ulimit -S -n "$(ulimit -H -n)"

# start NAME: starts a server, waits until it is up, and publishes to it.
start() {
    log=$room/$1.log
    serve "${file[$1]}" 'workers 4096' 'channel cam target=4 part=1000000 skip=24 window=36 renditions=hi first=0 start=0' >&2
    player_port[$1]=$port publisher_port[$1]=$publish_port process[$1]=$server
    publish_parts "$parts"
}

# present NAME CONNECTIONS: prints the line of one run, and the microseconds of processor time for an answer.
present() {
    local before line
    before=$(ticks "$1")
    line=$(load present "${player_port[$1]}" "$2" "$length")
    echo "$line" | awk -v ticks=$(($(ticks "$1") - before)) -v hertz="$(getconf CLK_TCK)" -v length_s="$length" '{ print $0, ticks * 1e6 / hertz / ($1 * length_s) }'
}

# measure_present CONNECTIONS: has the servers asked for the present playlist, by turns.
measure_present() {
    local run name
    rm -f "$room"/*.runs
    for ((run = 0; run < runs; run++)); do
        for name in "${asked[@]}"; do
            present "$name" "$1" >>"$room/$name.runs"
        done
    done
}

# measure_held CONNECTIONS NAME..: has connections wait for parts at these servers, by turns.
measure_held() {
    local run name
    rm -f "$room"/*.runs
    for ((run = 0; run < runs; run++)); do
        for name in "${@:2}"; do
            start "$name"
            load held "${player_port[$name]}" "${publisher_port[$name]}" "$1" 5 "${process[$name]}" | sed 's/^median //' >>"$room/$name.runs"
            stop
        done
    done
}

for name in "${asked[@]}"; do
    start "$name"
done
if start_nginx '' /cam/hi/live.m3u8; then
    asked+=(nginx)
fi
echo "$runs runs each: the program, and others beside it"
for connections in 1 64 512; do
    measure_present "$connections"
    compare "$connections connections" answers/s 1 0 "${asked[@]:1}"
    compare '    half of the answers within' us 2 0 "${asked[@]:1}"
    compare '    99 of 100 answers within' us 3 0 "${asked[@]:1}"
    compare '    processor time for an answer' us 4 1 "${asked[@]:1}"
done
stop
most=$(($(ulimit -n) - 100)) measured=0
for waiting in 100 1000 4000 10000 19000; do
    if [ "$waiting" -gt "$most" ]; then
        echo "$waiting waiting: ulimit -n allows $most"
        [ "$most" -gt "$measured" ] || break
        waiting=$most
    fi
    measured=$waiting
    others=(held)
    if [ "$waiting" -le 4000 ]; then
        others+=(yardstick)
    fi
    measure_held "$waiting" program "${others[@]}"
    echo "$waiting waiting"
    while read -r column digits unit told; do
        compare "    $told" "$unit" "$column" "$digits" "${others[@]}"
    done <<'END'
1 3 ms from the part to the first answer
2 3 ms to the median answer
3 3 ms to the last answer
4 3 ms to the ok of the publisher
5 1 us processor time for an answer
6 2 kB memory for each
8 0 kB memory in all
7 0 threads while they wait
END
done
