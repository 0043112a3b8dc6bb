#!/usr/bin/env bash
# split_clang.sh WORD..: does what the kit's clang does if it is called so, but compiles a large module of LLVM's on all processors: the kit's linker
# splits it into as many parts, each is compiled by the words that the whole was to be, and the linker joins their object files. What isn't such a
# module is compiled whole, and so is one with which a step fails. quick.sh copies this file to where `rt try` expects clang; the kit's own is beside
# it as clang.kit.
folder=${0%/*}
parts=$(nproc)

# kit_clang WORD..: runs the kit's clang, which is many programs in one and goes by its name.
kit_clang() {
    (exec -a clang "$folder/clang.kit" "$@")
}

# find_files WORD..: sets `module` to the file that is compiled, if it is one of LLVM's, `object` to what is made of it, and `words` to the others.
find_files() {
    module= object= words=()
    while [ $# -gt 0 ]; do
        case $1 in
        -o) object=$2 && shift ;;
        -x) [ "$2" != ir ] || module=$3; words+=("$1" "$2"); shift 2 ;;
        *) words+=("$1") ;;
        esac
        shift
    done
}

# split: writes the parts of `module` to the folder `room`. The linker optimizes nothing, and stops before it makes code, which it then finds wrong.
split() {
    local number
    "$folder/ld.lld" -r --lto-O0 --lto-CGO0 --lto-partitions="$parts" --threads="$parts" --save-temps=precodegen -mllvm -stop-before=pre-isel-intrinsic-lowering \
        -o "$room/part" "$module" >/dev/null 2>&1
    for ((number = 0; number < parts; number++)); do
        [ -s "$room/part.$number.5.precodegen.bc" ] || return
    done
    [ ! -e "$room/part.$parts.5.precodegen.bc" ]
}

# compile_parts: compiles the parts side by side. Fails if one of them does.
compile_parts() {
    local number each compilers=()
    for ((number = 0; number < parts; number++)); do
        kit_clang "${words[@]}" "$room/part.$number.5.precodegen.bc" -o "$room/$number.o" 2>/dev/null &
        compilers+=($!)
    done
    for each in "${compilers[@]}"; do
        wait "$each" || return
    done
}

find_files "$@"
if [ "$parts" -gt 1 ] && [ -n "$module" ] && [ -n "$object" ] && [ "$(stat -c %s "$module")" -gt 1000000 ]; then
    room=$(mktemp -d "$PWD/parts-XXXXXX")
    if split && compile_parts && "$folder/ld.lld" -r -o "$room/whole.o" "$room"/[0-9]*.o && mv "$room/whole.o" "$object"; then
        rm -rf "$room"
        exit 0
    fi
    wait
    rm -rf "$room"
fi
kit_clang "$@"
