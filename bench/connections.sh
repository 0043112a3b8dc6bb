#!/usr/bin/env bash
# connections.sh [REQUESTS]: asks REQUESTS times (by default 20,000) for a playlist: by `get` lines, and by `bytes` lines of one head each, of 200 and
# of 2,000 bytes. It prints the requests per second, and their ratio to those of `get` lines: the price of heads and sessions. Then it feeds the heads
# of 200 bytes to one connection in pieces of 1, 100 and 30,000 bytes, a tenth of them and all (for pieces of 1 byte a hundredth and a tenth). It
# prints the time for each head, and its ratio to that of the smaller number, which is near 1 if a head costs no more the more came before. Times are
# the median of RUNS runs (3 if it isn't set), less that of a script without requests. It judges nothing.
. "$(dirname "${BASH_SOURCE[0]}")/common.sh" || exit 2
take_program_or_proved
runs=${RUNS:-3}
requests=${1:-20000}

opening() {
    echo 'channel cam target=60 part=1000000 skip=360 window=540 renditions=hi first=0 start=0'
    echo 'pub cam part hi 10000 i'
}

# gets COUNT: prints a script of COUNT `get` lines.
gets() {
    opening
    awk -v count="$1" 'BEGIN { for (n = 1; n <= count; n++) print "get " n " /cam/hi/live.m3u8" }'
}

# heads COUNT BYTES PIECE: prints a script of COUNT heads of BYTES bytes, one after another on one connection, cut into pieces of PIECE bytes; 0 makes
# each head a piece.
heads() {
    opening
    LC_ALL=C awk -v count="$1" -v bytes="$2" -v piece="$3" '
    function hex_of(text,    hex, at) {
        for (at = 1; at <= length(text); at++) hex = hex code[substr(text, at, 1)]
        return hex
    }
    BEGIN {
        for (b = 1; b < 256; b++) code[sprintf("%c", b)] = sprintf("%02x", b)
        text = "GET /cam/hi/live.m3u8 HTTP/1.1\r\nHost: a\r\nUser-Agent: "
        while (length(text) < bytes - 4) text = text "x"
        head = hex_of(text "\r\n\r\n")
        if (piece == 0) { for (n = 1; n <= count; n++) print "bytes 1 " head; exit }
        for (n = 1; n <= count; n++) {
            rest = rest head
            while (length(rest) >= 2 * piece) { print "bytes 1 " substr(rest, 1, 2 * piece); rest = substr(rest, 2 * piece + 1) }
        }
        if (rest != "") print "bytes 1 " rest
    }'
}

# taken COUNT: prints the time of room/script, which has COUNT requests, each of which gets a playlist.
taken() {
    local with answered
    with=$(replayed "$room/script" | median)
    answered=$(answers '^(reply [0-9]+ 200 |sent )')
    [ "$answered" = "$1" ] || wrong "of $1 requests $answered were answered"
    echo $((with > without ? with - without : 1))
}

opening >"$room/script"
without=$(replayed "$room/script" | median)
gets "$requests" >"$room/script"
first=$(taken "$requests")
echo "get lines: $((requests * 1000000 / first)) requests/s"
for bytes in 200 2000; do
    heads "$requests" "$bytes" 0 >"$room/script"
    time=$(taken "$requests")
    awk -v n="$requests" -v bytes="$bytes" -v time="$time" -v first="$first" 'BEGIN {
        printf "heads of %d bytes: %d requests/s, %.3f of get lines\n", bytes, n * 1e6 / time, first / time
    }'
done
for piece in 1 100 30000; do
    many=$((piece == 1 ? requests / 10 : requests))
    heads $((many / 10)) 200 "$piece" >"$room/script"
    few=$(taken $((many / 10)))
    heads "$many" 200 "$piece" >"$room/script"
    all=$(taken "$many")
    awk -v piece="$piece" -v many="$many" -v few="$few" -v all="$all" 'BEGIN {
        printf "%d heads in pieces of %d bytes: %.2f us a head, %.2f of what a tenth of them takes each\n", many, piece, all / many, all / (10 * few)
    }'
done
