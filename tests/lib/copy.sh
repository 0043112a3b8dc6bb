# Copies of crates, and proofs in such copies. This file is sourced at the top of the repository.

# crates_below NAME..: prints the lines of crates.txt of these crates and those that they stand on.
crates_below() {
    # crates.txt lists each crate after those that it stands on.
    awk -F '[: ]+' -v names="$*" '
        BEGIN { many = split(names, list, " "); for (at = 1; at <= many; at++) wanted[list[at]] = 1 }
        { sub(/ *#.*/, "") }
        $1 == "" { next }
        { crate[++count] = $1; line[count] = $0 }
        END {
            for (n = count; n; n--)
                if (crate[n] in wanted) {
                    many = split(line[n], list)
                    for (at = 2; at <= many; at++) wanted[list[at]] = 1
                }
            for (n = 1; n <= count; n++)
                if (crate[n] in wanted) print line[n]
        }' crates.txt
}

# copy_crates FOLDER NAME..: copies these crates and those that they stand on to FOLDER, as a repository of their own, without what was built of them
# and without their must-fail edits. Fails if one can't be copied.
copy_crates() {
    local to=$1 crate
    mkdir -p "$to/crates" && cp HANDLES "$to" && crates_below "${@:2}" >"$to/crates.txt" || return
    for crate in $(cut -d: -f1 "$to/crates.txt"); do
        mkdir "$to/crates/$crate" && find "crates/$crate" -mindepth 1 -maxdepth 1 ! -name out ! -name must-fail -exec cp -r -t "$to/crates/$crate" {} + || return
    done
}

# copy_tests CRATES FOLDER: copies the test crates in the folder CRATES to FOLDER, with the crates that they stand on, which its file `crates` lists. Their
# files end in `.in`, since `rt ci` refuses a file *.rt that no crate of crates.txt reads.
copy_tests() {
    local each
    copy_crates "$2" $(grep -oE '\bll_[a-z_]+' "$1/crates")
    cp -r "$1"/*/ "$2/crates"
    cat "$1/crates" >>"$2/crates.txt"
    find "$2/crates" -name '*.in' | while IFS= read -r each; do mv "$each" "${each%.in}"; done
}

# keeps FOLDER: returns whether the kit keeps what one run proved for the next. Tries it in FOLDER, with a crate of one function.
keeps() {
    mkdir -p "$1/crates/tiny/src"
    cp HANDLES "$1"
    echo 'tiny:' >"$1/crates.txt"
    printf '%s\n' '#![tactic(auto)]' '' '/// Nothing.' 'pub fn nothing() {}' >"$1/crates/tiny/src/lib.rt"
    (cd "$1" && rt ci && rt ci) 2>&1 | grep ' is kept: ' >/dev/null
}

# prove_ahead FOLDER FILE: proves in copies in FOLDER, ahead of an `rt ci` over all crates, which takes what is proved here. FILE, which has the form of
# crates.txt, lists the crates. `lanes` is how many a niced run proves side by side, or empty for as many as `rt ci` finds memory for.
#
# Most crates wait for one another in a chain that ends with the server. So it has a run of its own, which divides the processors among those of its
# crates that are ready. Niced runs take what it leaves idle, and prove a crate by one processor, so they are kept off the crates that others wait for:
# each ends below a crate of the chain, and begins when those below that are proved. Each run takes what the others have proved. A run takes up to a
# minute to begin, so this function returns when the first one is at its last crate.
prove_ahead() {
    local ahead stage=0
    local -a folders=(middle high) after=(ll_pieces ll_room) below=(ll_page ll_record)
    # If the kit keeps nothing, each run would prove all.
    keeps "$1/tiny" || return 0
    copy_crates "$1/ahead" $(grep -oE '^ll_server\b' "$2")
    : >"$1/ahead.said"
    (cd "$1/ahead" && rt ci | tee "$1/ahead.said" | by_crate) &
    ahead=$!
    prove_beside "$1/low" ll_attr <"$2"
    until [ "$(proved <"$1/ahead.said")" -ge $(($(wc -l <"$1/ahead/crates.txt") - 1)) ]; do
        if [ -n "${after[stage]-}" ] && grep -Eq "^rt: ${after[stage]} (proved\$|is kept: )" "$1/ahead.said"; then
            prove_beside "$1/${folders[stage]}" "${below[stage]}" <"$2"
            stage=$((stage + 1))
        fi
        kill -0 "$ahead" 2>/dev/null || break
        sleep 1
    done
}

# prove_beside FOLDER NAME: reads lines of crates.txt on standard input, and begins a run in a copy in FOLDER, niced as far as can be, of the crates that
# don't stand on this one.
prove_beside() {
    copy_crates "$1" $(not_above "$2")
    (cd "$1" && RT_JOBS=${lanes-} nice -n 19 rt ci | by_crate) &
}

# by_crate: passes on what `rt ci` prints, all lines of a crate at once, so that those of other runs don't stand between them.
by_crate() {
    awk '{ lines = lines $0 "\n" } /^rt: / { printf "%s", lines; fflush(); lines = "" } END { printf "%s", lines }'
}

# proved: reads what `rt ci` prints on standard input, and prints how many crates are proved.
proved() {
    awk '/^rt: [a-z_]+ (proved$|is kept: )/ && !seen[$2]++ { count++ } END { print count + 0 }'
}

# not_above NAME: reads lines of crates.txt on standard input, and prints the crates but for this one and those that stand on it.
not_above() {
    awk -v name="$1" -F '[: ]+' '
        { sub(/ *#.*/, "") }
        $1 == "" { next }
        {
            above[$1] = $1 == name
            for (at = 2; at <= NF; at++) above[$1] += above[$at]
            if (!above[$1]) print $1
        }'
}

# news: passes on those lines of what `rt ci` prints that `tell` reads, each whole.
news() {
    grep --line-buffered -E '^(== |logic=proved |rt: )|NOT PROVED'
}

# tell WHOLE FOLDER..: reads the news of runs of `rt ci` in these folders, and prints a line for each crate that is proved: how many functions it has,
# how long it took, and its number among WHOLE.
tell() {
    local crate= count=0 line
    local -A functions told
    while IFS= read -r line; do
        case $line in
        '== '*) crate=${line#== } ;;
        'logic=proved functions='*)
            line=${line#*functions=} functions[$crate]=${line%% *}
            ;;
        'rt: '*' proved')
            line=${line#rt: } crate=${line% proved}
            [ -n "${told[$crate]-}" ] && continue
            count=$((count + 1)) told[$crate]=1
            echo "$crate: ${functions[$crate]-} functions in $(seconds "$crate" "${@:2}") s ($count of $1)"
            ;;
        'rt: '*' is kept: '*)
            line=${line#rt: } crate=${line%% *}
            [ -n "${told[$crate]-}" ] && continue
            count=$((count + 1)) told[$crate]=1
            echo "$crate: proved before ($count of $1)"
            ;;
        *'NOT PROVED'* | 'rt: FAILED'*) echo "$line" ;;
        esac
    done
}

# seconds CRATE FOLDER..: prints how many seconds ago its proof began in one of these folders, which is when its folder `out` was made in this run.
seconds() {
    local now folders=("${@:2}")
    now=$(date +%s)
    stat -c %W "${folders[@]/%//crates/$1/out}" 2>/dev/null | awk -v now="$now" -v run="$SECONDS" '
        $1 >= now - run - 1 && now - $1 > most { most = now - $1 }
        END { print most + 0 }'
}
