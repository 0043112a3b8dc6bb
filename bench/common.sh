# What the benches share beside tests/lib/common.sh; each sources it first. They judge nothing; if the program doesn't do what is measured, they end.
. "$(dirname "${BASH_SOURCE[0]}")/../tests/lib/common.sh" || exit 2
set -eo pipefail

# take_program_or_proved [PATH]: sets `program`, by default to the proved one.
take_program_or_proved() {
    take_program "${1:-$("$root/tests/program.sh")}"
}

# wrong MESSAGE..: ends the bench.
wrong() {
    echo "$*" >&2
    exit 1
}

# measure INPUT OUTPUT WORD..: runs the program `runs` times with these words, and prints a line for each run: the microseconds, and the peak memory
# in KiB.
measure() {
    local run
    [ -e "$room/measure" ] || compile "$here/measure.c"
    for ((run = 0; run < runs; run++)); do
        "$room/measure" "$1" "$2" "$program" "${@:3}"
    done
}

# replayed SCRIPT: prints such lines for `replay`, and leaves what that writes in `room/answers`.
replayed() {
    measure "$1" "$room/answers" replay
}

# answers PATTERN: prints how many lines of `room/answers` match the pattern.
answers() {
    grep -cE "$1" "$room/answers" || true
}

# ---- servers beside each other: the program, and others

# The process of each server, by its name.
declare -A process

# The port for players of each server, by its name.
declare -A player_port

# load WORD..: makes one run, and prints its last line.
load() {
    timeout 120 "$room/load" "$@" | tail -n 1
}

# start_nginx DIRECTIVE TARGET..: starts nginx with this directive and what the program answers to these requests as files, if it is installed; it counts
# as `nginx` then. Fails if it isn't installed or doesn't start, and says so.
start_nginx() {
    local target tries
    if ! command -v nginx >/dev/null; then
        echo 'nginx is not installed: nothing is measured of it'
        return 1
    fi
    for target in "${@:2}"; do
        mkdir -p "$room/files${target%/*}"
        exec {player}<>"/dev/tcp/127.0.0.1/${player_port[program]}"
        printf 'GET %s HTTP/1.1\r\nHost: bench\r\nConnection: close\r\n\r\n' "$target" >&"$player"
        sed $'1,/^\r$/d' <&"$player" >"$room/files$target"
        exec {player}>&-
    done
    for ((tries = 0; tries < 20; tries++)); do
        player_port[nginx]=$((20000 + RANDOM % 10000))
        cat >"$room/nginx.conf" <<END
user $(id -un) $(id -gn); daemon off; worker_processes auto; pid $room/nginx.pid; error_log $room/nginx.log;
events { worker_connections 4096; }
http {
    client_body_temp_path $room/t1; proxy_temp_path $room/t2; fastcgi_temp_path $room/t3; uwsgi_temp_path $room/t4; scgi_temp_path $room/t5;
    access_log off; keepalive_requests 1000000000; open_file_cache max=16; $1
    server { listen 127.0.0.1:${player_port[nginx]}; root $room/files; }
}
END
        nginx -p "$room" -c "$room/nginx.conf" 2>>"$room/nginx.log" &
        process[nginx]=$!
        sleep 0.5
        if kill -0 "${process[nginx]}" 2>/dev/null; then
            servers+=("${process[nginx]}")
            return
        fi
    done
    echo "nginx doesn't start: $(tail -n 1 "$room/nginx.log")"
    return 1
}

# publish_parts COUNT: publishes parts of a second of channel cam to the server that was started last, four to a segment.
publish_parts() {
    local number answer publisher
    exec {publisher}<>"/dev/tcp/127.0.0.1/$publish_port"
    for ((number = 0; number < $1; number++)); do
        case $((number % 4)) in
        0) echo 'cam part hi 1000000 i' ;;
        3) echo 'cam part hi 1000000 f' ;;
        *) echo 'cam part hi 1000000 -' ;;
        esac >&"$publisher"
        if ! read -r -t 10 answer <&"$publisher" || [ "$answer" != "ok $((number + 1))" ]; then
            wrong "part $number is answered by '$answer'"
        fi
    done
    exec {publisher}>&-
}

# compare NAME UNIT COLUMN DIGITS OTHER..: prints the medians of a column of the program's measured runs and of those of other servers, their quartiles,
# and the ratios.
compare() {
    local server line mine
    mine=$(spread "$3" <"$room/program.runs")
    line="$1: $(awk -v digits="$4" '{ form = "%." digits "f"; printf form " (" form " to " form ")", $1, $2, $3 }' <<<"$mine") $2"
    for server in "${@:5}"; do
        line+=$(echo "$mine" "$(spread "$3" <"$room/$server.runs")" | awk -v digits="$4" -v server="$server" '{
            form = "%." digits "f"
            printf ", " server " " form " (" form " to " form "), ", $6, $7, $8
            if ($1 <= 0 || $6 <= 0) print "no ratio"
            else if ($3 - $2 > $1 / 2 || $8 - $7 > $6 / 2) print "too short to tell"
            else printf "ratio %.2f", $1 / $6
        }')
    done
    echo "$line"
}

# ticks NAME: prints the processor time of a server and its workers so far.
ticks() {
    local each=("${process[$1]}") pid
    for pid in $(pgrep -P "${process[$1]}"); do
        each+=("$pid")
    done
    cat $(printf '/proc/%s/stat ' "${each[@]}") | awk '{ all += $14 + $15 } END { print all }'
}
