#!/usr/bin/env bash
# quick_builds.sh: tests when tests/lib/quick.sh builds the quick program and when it takes the one that it has, and that a build which fails or is
# interrupted leaves nothing behind. A stand-in for `rt` compiles nothing: the program that it makes prints what the sources say of the version. The
# last line is `N passed, M failed`.
. "$(dirname "${BASH_SOURCE[0]}")/../lib/common.sh" || exit 2
cd "$root" || exit 2
. tests/lib/copy.sh
copy_crates "$room/copy" llhls
mkdir -p "$room/copy/tests" "$room/kit/bin" "$room/kit/toolchain/bin" "$room/kit/toolchain/lib" "$room/tmp"
cp VERSION "$room/copy"
cp -r tests/lib "$room/copy/tests"
touch "$room/kit/bin/rattle" "$room/kit/toolchain/bin/clang" "$room/kit/toolchain/bin/ld.lld"
cat >"$room/kit/bin/rt" <<'END'
#!/usr/bin/env bash
case $1 in
version) cat "$KIT/version" ;;
try)
    echo "$0" >>"$KIT/calls"
    if [ "${FAULTY-}" = all ] || { [ "${FAULTY-}" = copy ] && [ "$0" != "$KIT/bin/rt" ]; }; then
        echo 'the crates are refused'
        exit 1
    fi
    [ -z "${SLOW_BUILD-}" ] || sleep 100
    mkdir "$TMPDIR/made"
    printf '#!/bin/sh\necho "%s"\n' "$(grep -o 'built with [^"\\]*' ../ll_command/src/version.rt)" >"$TMPDIR/made/program"
    chmod +x "$TMPDIR/made/program"
    touch "$(sed -n 's/^log //p' "${@: -1}")"
    sleep 100
    ;;
esac
END
chmod +x "$room/kit/bin/rt"
echo 'kit-1 logic 1' >"$room/kit/version"
made=$room/copy/build/quick
export KIT=$room/kit

# quick WORD..: runs quick.sh in the copy, with these settings of its environment. Sets `status`; its output is in `stdout` and `stderr`.
quick() {
    : >"$KIT/calls"
    env PATH="$KIT/bin:$PATH" TMPDIR="$room/tmp" "$@" "$room/copy/tests/lib/quick.sh" >"$room/stdout" 2>"$room/stderr"
    status=$?
}

# expect_quick NAME CALLS: tests that a program is there, that `rt try` was called so many times for it, and that nothing is left behind.
expect_quick() {
    if [ "$status" = 0 ] && [ "$(<"$room/stdout")" = "$made/llhls" ] && [ "$("$made/llhls")" = "built with $(<"$KIT/version"), not proved" ] &&
        [ "$(wc -l <"$KIT/calls")" = "$2" ] && is_clean; then
        pass
    else
        fail "$1: status $status, $(wc -l <"$KIT/calls") calls, $(<"$room/stderr")"
    fi
}

# expect_none NAME LINE: tests that there is no program, that the last line says why, and that nothing is left behind.
expect_none() {
    if [ "$status" != 0 ] && [ ! -s "$room/stdout" ] && [ "$(tail -n 1 "$room/stderr")" = "llhls: $2" ] && is_clean; then
        pass
    else
        fail "$1: status $status, $(<"$room/stdout") $(<"$room/stderr")"
    fi
}

# is_clean: returns whether no folder of a build is left, and no process of one.
is_clean() {
    [ -z "$(ls -A "$room/tmp")" ] && [ "$(ls -A "$made" | grep -vxE 'llhls|lock|of')" = '' ] && ! pgrep -f "$room/.*/settings" >/dev/null
}

quick
expect_quick 'the first build' 1
quick
expect_quick 'a second time' 0
echo '// changed' >>"$room/copy/crates/ll_attr/src/lib.rt"
quick FAULTY=all
expect_none 'crates that are refused' 'the program is not built'
quick
expect_quick 'a source that changed' 1
echo 'kit-2 logic 1' >"$KIT/version"
quick FAULTY=copy
expect_quick 'another kit, whose copy builds nothing' 2
quick PATH=/usr/bin:/bin
expect_quick 'a program that is there, without a kit' 0
echo '// changed' >>"$room/copy/crates/ll_attr/src/lib.rt"
quick PATH=/usr/bin:/bin
expect_none 'no kit' 'rt, the command of the Rattle kit, is not on the path, and builds the program: README.md, "The kit"'

# A build is interrupted.
: >"$KIT/calls"
PATH=$KIT/bin:$PATH TMPDIR=$room/tmp SLOW_BUILD=1 "$room/copy/tests/lib/quick.sh" >"$room/stdout" 2>"$room/stderr" &
slow=$!
until [ -s "$KIT/calls" ]; do
    sleep 0.1
done
kill -TERM "$slow"
wait "$slow"
if [ $? = 143 ] && is_clean; then
    pass
else
    fail "after an interrupt there is $(ls -A "$room/tmp" "$made")"
fi
quick
expect_quick 'the build after an interrupt' 1
sed -i 's/proved with/PROVED with/' "$room/copy/crates/ll_command/src/version.rt"
quick
expect_none 'another text of the version' "ll_command/src/version.rt doesn't have once what \`llhls version\` says of the kit"
if mount -t tmpfs -o size=4k none "$room/tmp" 2>/dev/null; then
    sed -i 's/PROVED with/proved with/' "$room/copy/crates/ll_command/src/version.rt"
    echo '// changed' >>"$room/copy/crates/ll_attr/src/lib.rt"
    quick
    expect_none 'a full disk' 'the crates cannot be copied'
    umount "$room/tmp"
else
    skip 'this machine allows no small disk'
fi
told_all
