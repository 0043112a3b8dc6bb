#!/usr/bin/env bash
# all.sh: the gate. Proves every crate from nothing. Beside that come the tests of the repository, and the crates' tests as `rt try` builds them, with
# checks and from the sources alone (SLOW=1: the rows on the quick program, too). Once the program is proved, it is tested while the last proofs go on:
# first what mostly waits, then what takes processors, its Debian package too (SLOW=1: installed in a clean Debian); last, one at a time, the server
# with real sockets, what stands in front of it, and what plays it. tests/README.md says what each test does. The last lines are what was skipped, and
# the sum, `N passed, M failed` or `N passed, M failed, K skipped`.
. "$(dirname "${BASH_SOURCE[0]}")/lib/common.sh" || exit 2
cd "$root" || exit 2
. tests/lib/copy.sh
program=crates/llhls/out/llhls
# The program as the second compiler builds it, if that one makes it.
by_rattle=$program.by-rattle

# show WORD..: runs a command, and shows its output as it comes.
show() {
    echo "== $*"
    "$@" 2>&1 | tee "$log"
    add "${PIPESTATUS[0]}" "$log" "$@"
}

# begin WORD..: runs a command beside others; `finish` shows the output of each, and adds its numbers.
commands=()
begin() {
    local number=${#commands[@]}
    commands+=("$*")
    { "$@" >"$room/$number" 2>&1; echo $? >"$room/$number.status"; } &
}

# start WORD..: begins a command once a processor is free, not counting those that mostly wait.
waiting=0
start() {
    while [ "$(jobs -rp | wc -l)" -ge $(($(nproc) + waiting)) ]; do
        wait -n
    done
    begin "$@"
}

finish() {
    local number
    wait
    for number in "${!commands[@]}"; do
        echo "== ${commands[number]}"
        cat "$room/$number"
        add "$(<"$room/$number.status")" "$room/$number" "${commands[number]}"
    done
    commands=() waiting=0
}

# crates_tests: runs tests/crates/try_tests.sh once the proofs leave processors idle, since its builds take some minutes: when `ll_hub` is proved.
crates_tests() {
    until grep -Eqs '^rt: ll_hub (proved$|is kept: |NOT PROVED)' "$room/ahead.said" "$room/proofs" || [ -e "$room/proofs.status" ]; do
        sleep 1
    done
    nice tests/crates/try_tests.sh
}

# minutes WORD..: prints how long this run has taken so far, and what its commands that have ended took of processors.
minutes() {
    local user system
    times >"$room/times"
    { read -r && read -r user system; } <"$room/times"
    echo "== $*: $((SECONDS / 60)) min, of processors $((${user%m*} + ${system%m*})) min"
}

start tests/repository/edits_apply.py
start tests/repository/listed.py
start tests/repository/contents.py
start tests/repository/build_lines.sh
start tests/repository/quick_builds.sh
begin crates_tests
if [ -n "${SLOW-}" ]; then
    begin nice tests/program/try_rows.sh
fi
echo "== rt ci"
# A line for each crate shows that the proofs go on.
{
    lanes=${RT_JOBS:-$(nproc)} prove_ahead "$room" crates.txt > >(news) 2>&1
    rt ci 2>&1 | tee "$room/proofs" | news
    echo "${PIPESTATUS[0]}" >"$room/proofs.status"
} </dev/null > >(tell "$(grep -c '^[a-z]' crates.txt)" "$room"/{low,middle,high,ahead} "$root") &
proofs=$!
# The program is tested as soon as it is proved, since the last proofs leave processors idle.
until grep -Eqs '^rt: llhls (proved$|is kept: )' "$room/proofs" || [ -e "$room/proofs.status" ]; do
    sleep 1
done
for name in server/{allowed,doors,log,record,spool,status}.py push/{pair,push}.py; do
    begin "tests/$name" "$program"
    waiting=$((waiting + 1))
done
begin tests/push/killed.py "$program" 20
waiting=$((waiting + 1))
start tests/program/explained_faults.py "$program"
start tests/records/explained.py "$program"
start tests/records/multivariant.py "$program"
start tests/repository/package.py "$program"
for name in program/mutated_playlists records/{mutated_records,upgrades} program/{connections,dropped,mutated_heads,short_devices,large,rows}; do
    start "tests/$name.sh" "$program"
done
start env LLHLS="$program" tests/program/refused_memory.sh held_example bytes_of_parts date_ranges_are_skipped next_request_waits_again \
    apply/date_ranges_with_two_removed check/a_held_request upgrade/a_held_request explain/a_held_request
if [ -e "$by_rattle" ]; then
    start tests/program/rows.sh "$by_rattle"
fi
wait "$proofs"
minutes 'all is proved'
grep -Ev '^fn .*: proved$' "$room/proofs"
add "$(<"$room/proofs.status")" "$room/proofs" rt ci
# `rt ci` passes over an edit that doesn't compile, which says nothing of a contract.
if grep -q '\.edit: BAD EDIT' "$room/proofs"; then
    fail 'a must-fail edit does not compile'
fi
finish
for name in server/{serve,edge}.py page/{watch,page}.py; do
    show "tests/$name" "$program"
done
minutes 'all is tested'
told_all
