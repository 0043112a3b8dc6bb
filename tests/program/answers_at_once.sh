#!/usr/bin/env bash
# answers_at_once.sh PROGRAM: checks that a publisher that keeps its end open can read each answer before it sends its next line.
. "$(dirname "${BASH_SOURCE[0]}")/../lib/common.sh" || exit 2
take_program "$1"
coproc llhls { exec "$program" replay; }
servers=("$llhls_PID")
send=${llhls[1]}
receive=${llhls[0]}

# answered ANSWER: reads the next answer, and ends the script if it is another one.
answered() {
    local answer
    read -r -t 30 answer <&"$receive" || exit 1
    [ "$answer" = "$1" ] || exit 1
}

echo "${cam/hi,lo/hi}" >&"$send"
for count in 1 2 3; do
    printf 'pub cam part hi 1000000 f\n' >&"$send"
    answered "ok $count"
done
# A line that comes in two pieces is answered with the second.
printf 'pub cam part hi 0' >&"$send"
if read -r -t 1 answer <&"$receive"; then
    exit 1
fi
printf ' f\n' >&"$send"
answered 'no 3 BadDuration'
exec {send}>&-
wait "${servers[0]}"
