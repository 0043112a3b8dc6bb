# What the scripts of tests/ and bench/ share; each sources it first. It sets `here` to the folder of that script, `lib` to that of
# this file, `root` to that of the repository, and `room` to a folder that is removed when the script ends, as the servers that it started are stopped
# then. Texts and numbers are those of the C locale.
set -u
export LC_ALL=C
here=$(cd "$(dirname "${BASH_SOURCE[-1]}")" && pwd) || exit 2
lib=$(cd "$(dirname "${BASH_SOURCE[0]}")" && pwd) || exit 2
root=${lib%/tests/lib}
room=$(mktemp -d) || exit 2
trap 'stop; rm -rf "$room"' EXIT

# ---- counts

passed=0
failed=0
skipped=0

# What was skipped, and why: a line `skipped: NAME: WHY` for each thing.
left_out=()

pass() {
    passed=$((passed + 1))
}

# fail MESSAGE..: counts a test that has failed, and prints why.
fail() {
    failed=$((failed + 1))
    echo "FAILED $*"
}

# skip WHY [COUNT]: counts tests, one if COUNT isn't given, as skipped.
skip() {
    skipped=$((skipped + ${2-1}))
    left_out+=("skipped: ${0##*/}: $1")
}

# add STATUS FILE WORD..: adds the numbers of the last line of FILE, `N passed, M failed` or `N passed, M failed, K skipped`, which the command of these
# words wrote before it ended with STATUS, and takes over what it says was skipped.
add() {
    if [[ $(tail -n 1 "$2") =~ ^([0-9]+)\ passed,\ ([0-9]+)\ failed(,\ ([0-9]+)\ skipped)?$ ]]; then
        passed=$((passed + BASH_REMATCH[1]))
        failed=$((failed + BASH_REMATCH[2]))
        skipped=$((skipped + ${BASH_REMATCH[4]:-0}))
        if [ "$1" != 0 ] && [ "${BASH_REMATCH[2]}" = 0 ]; then
            fail "${*:3}: it ended with status $1"
        fi
        mapfile -t -O "${#left_out[@]}" left_out < <(grep '^skipped: ' "$2")
    else
        fail "${*:3}: it ended without its count"
    fi
}

# told_all: prints the last lines of a script, what was skipped and the sum, and returns its status.
told_all() {
    [ "${#left_out[@]}" = 0 ] || printf '%s\n' "${left_out[@]}"
    if [ "$skipped" = 0 ]; then
        echo "$passed passed, $failed failed"
    else
        echo "$passed passed, $failed failed, $skipped skipped"
    fi
    [ "$failed" = 0 ]
}

# give_up MESSAGE..: ends the script with one failure.
give_up() {
    echo "$*"
    passed=0 failed=1 skipped=0 left_out=()
    told_all
    exit 1
}

# ---- the program

# take_program PATH: sets `program`.
take_program() {
    program=$(realpath -- "$1")
    [ -f "$program" ] && [ -x "$program" ] || give_up "$1 is no program"
}

# all_of FILE: sets `said` to all that the file holds. Fails if that has a byte 0, which no text here has.
all_of() {
    ! IFS= read -r -d '' said <"$1"
}

# is_said FAULT: returns whether `said` is this line, or none if FAULT is empty, and maybe lines after it that explain how the program ended, each
# indented by two spaces.
is_said() {
    local rest=$said
    if [ -n "$1" ]; then
        rest=${said#"$1"$'\n'}
        [ "$rest" != "$said" ] || return
    fi
    while [ -n "$rest" ]; do
        [[ $rest == '  '*$'\n'* ]] || return
        rest=${rest#*$'\n'}
    done
}

# expect NAME OUTPUT STATUS FAULT WORD..: runs the program on standard input. Tests that it writes what the file OUTPUT holds, says FAULT on standard
# error, or nothing if that is empty, and ends with STATUS. If that is 0, nothing is said.
expect() {
    local name=$1 output=$2 wanted=$3 fault=$4 status
    shift 4
    timeout 120 "$program" "$@" >"$room/stdout" 2>"$room/stderr"
    status=$?
    if [ "$status" = "$wanted" ] && cmp -s "$room/stdout" "$output" && all_of "$room/stderr" && is_said "$fault" && [ "$wanted${said:+said}" != 0said ]; then
        pass
    else
        fail "$name: status $status, and $wanted is wanted; standard error (wanted is '$fault'):"
        head -c 2000 "$room/stderr"
        cmp "$room/stdout" "$output"
    fi
}

# ending_of NAME: sets `wanted` to the status with which a row ends, and `fault` to what it writes to standard error.
declare -A endings=()
ending_of() {
    local name ending
    if [ "${#endings[@]}" = 0 ]; then
        while read -r name ending; do
            endings[$name]=$ending
        done < <(grep -v '^#' "$root/tests/program/endings")
    fi
    read -r wanted fault <<<"${endings[$1]-0}"
}

# compile FILE [FLAG..]: compiles NAME.c to room/NAME.
compile() {
    local name=${1##*/}
    command -v "${CC:-cc}" >/dev/null || give_up "${CC:-cc}, the C compiler, is not installed"
    "${CC:-cc}" -O2 -Wall -Wextra -Werror "${@:2}" -o "$room/${name%.c}" "$1" || exit 2
}

# ---- servers

# The servers that run.
servers=()
log=$room/log

# serve PROGRAM LINE..: starts a server on ports of the system's choice, with these lines of settings after them. Waits until it has printed both, and
# sets `port` to that for players and `publish_port` to that for publishers.
serve() {
    local tries
    printf '%s\n' 'listen 127.0.0.1:0' 'publish 127.0.0.1:0' "${@:2}" >"$room/settings"
    : >"$log"
    "$1" serve "$room/settings" >"$room/stdout" 2>>"$log" &
    server=$!
    servers+=("$server")
    for ((tries = 0; tries < 200; tries++)); do
        port=$(sed -n 's/^.*: players on 127\.0\.0\.1:\([0-9]*\)$/\1/p' "$log")
        publish_port=$(sed -n 's/^.*: publishers on 127\.0\.0\.1:\([0-9]*\)$/\1/p' "$log")
        if [ -n "$port" ] && [ -n "$publish_port" ]; then
            return 0
        fi
        kill -0 "$server" 2>/dev/null || break
        sleep 0.05
    done
    echo "$1 isn't up: $(head -c 1000 "$log")"
    return 1
}

# stop: stops all servers.
stop() {
    local each
    for each in "${servers[@]}"; do
        { kill -- "$each" && wait "$each"; } 2>/dev/null || true
    done
    servers=()
}

# ---- numbers and texts

# spread [COLUMN]: prints the median, the smaller and the larger quartile, the least and the largest of the numbers in a column of standard input, by
# default the first.
spread() {
    sort -g -k "${1-1},${1-1}" | awk -v column="${1-1}" '
        { at[NR] = $column }
        END { print at[int((NR + 1) / 2)], at[1 + int(NR / 4)], at[NR - int(NR / 4)], at[1], at[NR] }'
}

# median [COLUMN]: prints the median alone.
median() {
    spread "$@" | cut -d ' ' -f 1
}

# many COUNT: prints COUNT bytes x.
many() {
    head -c "$1" /dev/zero | tr '\0' x
}

# The settings of the channel of most tests.
cam='channel cam target=4 part=1000000 skip=24 window=36 renditions=hi,lo first=0 start=0'
