#!/usr/bin/env bash
# quick.sh: prints the path of the quick program: the program as `rt try` builds it, from the sources, unproved, with checks that stop it at a fault.
# It is kept in build/quick beside the sum of what it was built of; while that stays the same it is taken from there. `llhls version` of it says that
# it isn't proved. What is being done is said on standard error, every ten seconds.
#
# `rt try` removes a program that it has run, so it runs it as a server, and the program is copied once that is up, which its log file shows. It is
# run first in a copy of the kit's folder in which split_clang.sh compiles the program on all processors, and nothing looks for names that only a
# proof would refuse. If no program comes of that, the kit itself builds it.
set -u
export LC_ALL=C
cd "$(dirname "${BASH_SOURCE[0]}")/../.." || exit 2
. tests/lib/copy.sh
helpers=$PWD/tests/lib
kept=$PWD/build/quick
program=$kept/llhls
room=
builder=
trap 'stop; [ -z "$room" ] || rm -rf "$room"' EXIT
trap 'exit 130' INT
trap 'exit 143' TERM HUP

# stop: ends what builds, and waits until `rt` has removed its files.
stop() {
    [ -n "$builder" ] || return 0
    { kill "$builder" && wait "$builder"; } 2>/dev/null
    builder=
}

# say WORD..: tells what is done.
say() {
    echo "llhls: $*" >&2
}

# give_up WORD..: ends without a program.
give_up() {
    say "$*"
    exit 1
}

# sources: prints the sum of all that the program is built of, but for the kit.
sources() {
    {
        printf '%s\n' HANDLES VERSION crates.txt "$helpers/copy.sh" "$helpers/quick.sh" "$helpers/split_clang.sh"
        crates_below llhls | cut -d: -f1 | while read -r crate; do find "crates/$crate/src" -type f; done | sort
    } | tr '\n' '\0' | xargs -0 sha256sum | sha256sum | cut -d ' ' -f 1
}

# is_kept SUM KIT: returns whether the program is there, of sources of this sum and by this kit; by any kit if none is here.
is_kept() {
    local sum kit
    [ -x "$program" ] && { read -r sum && read -r kit; } 2>/dev/null <"$kept/of" && [ "$sum" = "$1" ] && [ "${2:-$kit}" = "$kit" ]
}

# copy_sources KIT: copies the crates to the room, with a version that says that it isn't proved.
copy_sources() {
    local file=$room/all/crates/ll_command/src/version.rt claim='proved with rattle-kit-[a-z0-9]* logic [0-9a-f]*, or a later kit of the same logic'
    copy_crates "$room/all" llhls || give_up 'the crates cannot be copied'
    [ "$(grep -o "$claim" "$file" | wc -l)" = 1 ] || give_up "ll_command/src/version.rt doesn't have once what \`llhls version\` says of the kit"
    sed -i "s/$claim/built with $1, not proved/" "$file" || give_up "$file cannot be written"
}

# copy_kit KIT: makes a folder of links to the kit's files, in which split_clang.sh stands for clang, and nothing for the check that `rt try` runs
# beside the build. `rt` finds its kit by where its own file is, so what is no program is copied.
copy_kit() {
    local to=$room/kit each
    mkdir -p "$to/bin" "$to/toolchain/bin" || return
    ln -s "$1"/* "$to" 2>/dev/null
    for each in "$1"/bin/*; do
        if [ "$(head -c 2 "$each")" = '#!' ] || [ "${each##*.}" = py ]; then
            cp "$each" "$to/bin" || return
        else
            ln -s "$each" "$to/bin" || return
        fi
    done
    for each in "$1"/toolchain/bin/*; do
        ln -s "$(realpath "$each")" "$to/toolchain/bin/${each##*/}" || return
    done
    ln -s "$1/toolchain/lib" "$to/toolchain/lib" || return
    mv "$to/toolchain/bin/clang" "$to/toolchain/bin/clang.kit" && cp "$helpers/split_clang.sh" "$to/toolchain/bin/clang" || return
    rm "$to/bin/rattle" && cat >"$to/bin/rattle" <<END && chmod +x "$to/bin/rattle"
#!/bin/sh
case "\$*" in *'--start no function'*) exit 1 ;; esac
exec '$1/bin/rattle' "\$@"
END
}

# step: prints what the build is at.
step() {
    if [ -n "$(find "$room/tmp" -name '*.bc' -size +1000k 2>/dev/null | head -n 1)" ]; then
        echo 'compiles them'
    else
        echo 'reads the crates'
    fi
}

# build RT: builds the program by this `rt`, and copies it to the room. Fails if none comes of it.
build() {
    local made until=$SECONDS
    mkdir -p "$room/tmp"
    rm -f "$room/log"
    printf '%s\n' 'listen 127.0.0.1:0' 'publish 127.0.0.1:0' 'workers 1' "log $room/log" \
        'channel cam target=4 part=1000000 skip=24 window=36 renditions=hi first=0 start=0' >"$room/settings"
    (cd "$room/all/crates/llhls" && TMPDIR=$room/tmp GLIBC_TUNABLES=glibc.malloc.hugetlb=1 exec "$1" try --steps 1 -- serve "$room/settings") \
        >"$room/said" 2>&1 </dev/null 9>&- &
    builder=$!
    while kill -0 "$builder" 2>/dev/null; do
        if [ -e "$room/log" ]; then
            made=$(find "$room/tmp" -type f -perm -u=x -printf '%s %p\n' | sort -n | tail -n 1)
            cp "${made#* }" "$room/llhls"
            break
        fi
        if [ $((SECONDS - until)) -ge 10 ]; then
            until=$SECONDS
            say "$((SECONDS - began)) s: $(step)"
        fi
        sleep 0.2
    done
    stop
    [ -x "$room/llhls" ] && [[ $("$room/llhls" version) == *', not proved' ]]
}

main() {
    local kit= sum rt
    if command -v rt >/dev/null; then
        kit=$(rt version) || give_up 'rt version fails'
    fi
    mkdir -p "$kept" && exec 9>"$kept/lock" || give_up "$kept cannot be made"
    if command -v flock >/dev/null && ! flock -n 9; then
        say 'another run builds the quick program; this one waits for it'
        flock 9
    fi
    sum=$(sources)
    if ! is_kept "$sum" "$kit"; then
        [ -n "$kit" ] || give_up 'rt, the command of the Rattle kit, is not on the path, and builds the program: README.md, "The kit"'
        began=$SECONDS
        say "builds the program from the sources, unproved, with checks, in build/quick: once, in some two minutes on an idle machine"
        room=$(mktemp -d) || give_up 'no folder can be made'
        copy_sources "$kit"
        rt=$(realpath "$(command -v rt)")
        if ! { copy_kit "${rt%/bin/rt}" && build "$room/kit/bin/rt"; } && ! { rm -rf "$room/kit" "$room/llhls"; say 'builds it again, by the kit alone'; build "$rt"; }; then
            tail -n 5 "$room/said" >&2
            give_up 'the program is not built'
        fi
        # (what is kept is there whole, or isn't taken)
        if ! { rm -f "$kept/of" && install -m 755 "$room/llhls" "$kept/new" && mv "$kept/new" "$program" && printf '%s\n' "$sum" "$kit" >"$kept/of.new" && mv "$kept/of.new" "$kept/of"; }; then
            rm -f "$kept"/{new,of,of.new}
            give_up "$program cannot be written"
        fi
        say "built in $((SECONDS - began)) s"
    fi
    echo "$program"
}

main; exit
