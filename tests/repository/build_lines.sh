#!/usr/bin/env bash
# build_lines.sh: tests what tests/build.sh prints, with a stand-in for `rt` that proves nothing and prints what the kit's prints: a numbered line for
# each crate, then the program's path, and a status of 1 if a crate isn't proved. If the stand-in keeps nothing (FORGETS), no crate is proved twice.
# The last line is `N passed, M failed`.
. "$(dirname "${BASH_SOURCE[0]}")/../lib/common.sh" || exit 2
cd "$root" || exit 2
. tests/lib/copy.sh
copy_crates "$room/copy" llhls
cp -r tests "$room/copy"
mkdir "$room/bin"
cat >"$room/bin/rt" <<'END'
#!/usr/bin/env bash
cut -d: -f1 crates.txt | tr '\n' ' ' >>"${0%/rt}/calls"
echo >>"${0%/rt}/calls"
# (`rt ci NAME` works in a copy)
for crate in $(cut -d: -f1 crates.txt); do
    [ $# != 1 ] || mkdir "crates/$crate/out"
    if [ "$crate" = "${FAULTY-}" ]; then
        echo "rt: $crate NOT PROVED"
        exit 1
    elif mkdir "${0%/rt}/$crate" 2>/dev/null || [ -n "${FORGETS-}" ]; then
        printf '== %s\nlogic=proved functions=3 sum=0\nrt: %s proved\n' "$crate" "$crate"
    else
        echo "rt: $crate is kept: an earlier run proved it"
    fi
done
[ ! -d crates/llhls ] || echo program >crates/llhls/out/llhls
END
chmod +x "$room/bin/rt"

# build: runs tests/build.sh, sets `status`, and leaves its output in `stdout` and `stderr`.
build() {
    PATH=$room/bin:$PATH "$room/copy/tests/build.sh" >"$room/stdout" 2>"$room/stderr"
    status=$?
    made=$room/copy/crates/llhls/out
}

# expect_lines: tests that it succeeded, and printed a line for each crate.
expect_lines() {
    if [ "$status" = 0 ] && [ "$(<"$room/stdout")" = "$made/llhls" ] && [ "$(<"$made/llhls")" = program ]; then
        pass
    else
        fail "status $status, $(<"$room/stdout")"
    fi
    if [ "$(sed -n -E "s/^[a-z_0-9]+: (3 functions in [0-9]+ s|proved before) \(([0-9]+) of $count\)$/\2/p" "$room/stderr")" = "$(seq "$count")" ] && [ "$(wc -l <"$room/stderr")" = "$count" ]; then
        pass
    else
        fail "a line for each crate:"
        cat "$room/stderr"
    fi
}

count=$(wc -l <"$room/copy/crates.txt")
build
expect_lines
rm -r "$room"/bin/[a-z]*_* "$room/bin/tiny" "$room/bin/calls"
FORGETS=1 build
expect_lines
if [ "$(grep -c 'll_attr ' "$room/bin/calls")" = 1 ]; then
    pass
else
    fail "what was proved is proved again:"
    cat "$room/bin/calls"
fi
rm -r "$room"/bin/[a-z]*_*
FAULTY=ll_hub build
if [ "$status" = 1 ] && [ ! -s "$room/stdout" ] && [ "$(tail -n 1 "$room/stderr")" = "$made/build.log says why" ] && grep -q '^rt: ll_hub NOT PROVED$' "$room/stderr"; then
    pass
else
    fail "a crate that isn't proved: status $status"
    cat "$room/stderr"
fi
told_all
