#!/usr/bin/env bash
# secrets.sh [PROGRAM]: measures what players notice while strangers try secrets: 64 connections send 10,000 wrong secrets of one channel a second, of
# which the server answers some, and 64 players ask for another channel's playlist. By turns with and without them, it prints
#
# - if each player asks for the present playlist again as soon as it is answered: the answers per second, and the 50th and 99th percentile of the time to
#   an answer;
#
# - if the players wait for the next part: the milliseconds from its publication to the first, the median and the last answer, and to the publisher's `ok`;
#
# and how many secrets were answered in a second. Numbers are the median of RUNS runs (9 if it isn't set), of LENGTH seconds (1) or of 5 parts each; after
# it stand the smaller and the larger quartile. It judges nothing.
. "$(dirname "${BASH_SOURCE[0]}")/common.sh" || exit 2
take_program_or_proved "${1-}"
runs=${RUNS:-9}
length=${LENGTH:-1}
settings='target=4 part=1000000 skip=24 window=36 renditions=hi first=0 start=0'
compile "$here/load.c" -pthread
compile "$here/secrets.c"

# start: starts a server of two channels, the second with a secret.
start() {
    serve "$program" 'workers 128' "channel cam $settings" "channel safe $settings" "secret $(printf correct-horse-battery | sha256sum | cut -d ' ' -f 1)"
    publish_parts 44
}

# measured KIND: prints the line of one run, without its first word `median`.
measured() {
    case $1 in
    present) load present "$port" 64 "$length" ;;
    held) load held "$port" "$publish_port" 64 5 "$server" | sed 's/^median //' ;;
    esac
}

# measure_by_turns KIND: has the players ask, without wrong secrets and with them, by turns.
measure_by_turns() {
    local run
    rm -f "$room"/*.runs
    for ((run = 0; run < runs; run++)); do
        start
        measured "$1" >>"$room/quiet.runs"
        stop
        start
        "$room/secrets" "$publish_port" 10000 >"$room/answered" &
        servers=("$!" "${servers[@]}")
        sleep 1.5
        measured "$1" >>"$room/program.runs"
        sed 1d "$room/answered" >>"$room/rates"
        stop
    done
}

measure_by_turns present
echo "$runs runs each: with wrong secrets, and quiet"
compare '64 players who ask at once' answers/s 1 0 quiet
compare '    half of the answers within' us 2 0 quiet
compare '    99 of 100 answers within' us 3 0 quiet
measure_by_turns held
echo '64 players who wait'
compare '    from the part to the first answer' ms 1 3 quiet
compare '    to the median answer' ms 2 3 quiet
compare '    to the last answer' ms 3 3 quiet
compare '    to the ok of the publisher' ms 4 3 quiet
echo "secrets answered in a second: $(spread <"$room/rates")"
