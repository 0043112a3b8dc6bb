#!/usr/bin/env bash
# waiting.sh [WAITING..]: measures requests that wait. First, while WAITING requests wait for a segment far ahead (by default 0, 1,000 and 60,000), it
# publishes 400,000 parts of a segment before that. For each number it prints the parts per second, and their ratio to the first number's: what
# requests cost that a part doesn't release.
#
# Then it prints what one of 1,000 and of 60,000 requests that wait together costs from its line to its end, and the ratio of the second to the first:
# if they wait until the script ends, if each is closed in the order of asking or in reverse, and if one part releases all (of 10,000 too). A request
# that waits is dropped with the script, which takes about as long as a close; so each row stands for itself, and none is less another. Then a channel
# is filled with as many requests as can wait, and one part empties it: it prints the seconds. At last one part releases 10,000 requests for the same
# playlist, or the same requests time out: it prints how much longer the first takes, and how long for each reply; the playlist is rendered once.
#
# Times are the median of RUNS runs (3 if it isn't set; 15 times as many for the cost of one request of up to 10,000, which the start of a run would
# exceed otherwise), less that of the script that is compared, which is one without requests unless another is named. It judges nothing.
. "$(dirname "${BASH_SOURCE[0]}")/common.sh" || exit 2
take_program_or_proved
runs=${RUNS:-3}
if [ "$#" = 0 ]; then
    set -- 0 1000 60000
fi

# script WAITING PARTS: prints a script of WAITING requests that wait for segment 2, and then PARTS parts of segment 0.
script() {
    awk -v waiting="$1" -v parts="$2" 'BEGIN {
        print "channel cam target=60 part=1000000 skip=360 window=540 renditions=hi first=0 start=0"
        print "pub cam part hi 10000 i"
        for (n = 1; n <= waiting; n++) print "get " n " /cam/hi/live.m3u8?_HLS_msn=2"
        for (n = 1; n <= parts; n++) print "pub cam part hi 100 -"
    }'
}

# asked REQUESTS: prints a script of REQUESTS requests that wait for the second part.
asked() {
    awk -v requests="$1" 'BEGIN {
        print "channel cam target=60 part=1000000 skip=360 window=540 renditions=hi first=0 start=0"
        print "pub cam part hi 10000 i"
        for (n = 1; n <= requests; n++) print "get " n " /cam/hi/live.m3u8?_HLS_msn=0&_HLS_part=1"
    }'
}

# released REQUESTS LINE: prints the same, and a last line.
released() {
    asked "$1"
    echo "$2"
}

# time_of SCRIPT [TIMES]: prints the median time in microseconds, of TIMES times as many runs.
time_of() {
    local runs=$((runs * ${2:-1}))
    replayed "$1" | median
}

parts=400000
first=
for waiting in "$@"; do
    script "$waiting" 0 >"$room/script"
    without=$(time_of "$room/script")
    script "$waiting" "$parts" >"$room/script"
    with=$(time_of "$room/script")
    accepted=$(answers '^ok ')
    [ "$accepted" = $((parts + 1)) ] || wrong "of $((parts + 1)) parts $accepted were accepted"
    taken=$((with > without ? with - without : 1))
    first=${first:-$taken}
    awk -v waiting="$waiting" -v parts="$parts" -v taken="$taken" -v first="$first" 'BEGIN {
        printf "%d waiting: %d parts/s, %.3f of the first\n", waiting, parts * 1e6 / taken, first / taken
    }'
done

# closed REQUESTS up|down: prints the same, with each request closed, in order of asking or in reverse.
closed() {
    asked "$1"
    awk -v requests="$1" -v way="$2" 'BEGIN {
        for (n = 1; n <= requests; n++) print "close " (way == "up" ? n : requests + 1 - n)
    }'
}

# spent REPLIES SCRIPT REQUESTS WORD..: prints by how much the median time of the script that a command writes for REQUESTS requests exceeds that of
# the script without requests. REPLIES of them get a playlist.
spent() {
    local wanted=$1 time replies
    shift
    "$@" >"$room/script"
    time=$(time_of "$room/script" $(($2 > 10000 ? 1 : 15)))
    replies=$(answers '^reply .* 200 ')
    [ "$replies" = "$wanted" ] || wrong "$*: of $wanted requests $replies got a playlist"
    echo $((time > none ? time - none : 1))
}

# each NAME NUMBER TIME..: prints the microseconds for one request at each number, and the ratio of the last to the first.
each() {
    awk 'BEGIN {
        line = ARGV[1]
        for (n = 2; n < ARGC; n += 2) {
            last = ARGV[n + 1] / ARGV[n]
            if (n == 2) first = last
            line = line (n == 2 ? ": " : ", ") sprintf("%.2f us at %d", last, ARGV[n])
        }
        printf "%s, ratio %.2f\n", line, last / first
    }' "$@"
}

asked 0 >"$room/script"
none=$(time_of "$room/script" 15)
part='pub cam part hi 10000 -'
few=$(spent 0 asked 1000)
many=$(spent 0 asked 60000)
each 'a request that waits until the end' 1000 "$few" 60000 "$many"
for way in up down; do
    few=$(spent 0 closed 1000 "$way")
    many=$(spent 0 closed 60000 "$way")
    if [ "$way" = up ]; then name='in the order of asking'; else name='in reverse'; fi
    each "a request that is closed, $name" 1000 "$few" 60000 "$many"
done
few=$(spent 1000 released 1000 "$part")
some=$(spent 10000 released 10000 "$part")
many=$(spent 60000 released 60000 "$part")
each 'a request that one part releases' 1000 "$few" 10000 "$some" 60000 "$many"
full=$(spent 65536 released 65536 "$part")
awk -v taken="$full" 'BEGIN { printf "filled with 65536 and emptied by one part: %.3f s\n", taken / 1e6 }'

released 10000 'clock 180000' >"$room/script"
without=$(time_of "$room/script" 15)
released 10000 'pub cam part hi 10000 -' >"$room/script"
with=$(time_of "$room/script" 15)
replies=$(answers '^reply .* 200 ')
[ "$replies" = 10000 ] || wrong "of 10000 requests $replies got a playlist"
awk -v taken=$((with > without ? with - without : 1)) 'BEGIN {
    printf "10000 released by one part: %d us more than as many time-outs, %.2f us a reply\n", taken, taken / 10000
}'
