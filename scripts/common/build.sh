# Finds the kit's rt and builds programs. To be sourced.
# shellcheck shell=sh

# crates_below FILE CRATE: the crates that a crate of this crates.txt stands on, lower ones first, then the crate itself; one a line
crates_below() {
    awk -v crate="$2" '
    function visit(name,    uses, count, i) {
        if (!(name in line)) return
        count = split(line[name], uses, " ")
        delete line[name]
        for (i = 1; i <= count; i++) visit(uses[i])
        print name
    }
    { sub(/#.*/, "") }
    /:/ { name = $1; sub(/:.*/, "", name); sub(/^[^:]*:/, ""); line[name] = $0 }
    END { visit(crate) }' "$1"
}

# tell [WORD..]: a line of progress on standard error: how many crates are proved, what is told, and the time since the start. A crate
# is begun only when all before it in `crates` are proved, now or by an earlier run.
tell() {
    told_at=$(date +%s)
    elapsed=$((told_at - started_at))
    printf 'proved %s of %s%s (%d min %02d s)\n' "$proved" "$crate_count" "${*:+, $*}" $((elapsed / 60)) $((elapsed % 60)) >&2
}

# place_of CRATE: its place in `crates`, from 1 on
place_of() {
    printf '%s\n' "$crates" | grep -nxF "$1" | cut -d: -f1
}

# follow_build LOG: copies what rt writes from standard input to the log, and tells how far the build is: a line as a crate begins, one
# in between where rt tells more and a minute passed since the last, and one at the end. It ends with the status in the last line.
follow_build() {
    now_built=
    code=1
    while IFS= read -r line; do
        printf '%s\n' "$line" >&3
        case $line in
        "rt: chose --jobs "*)
            now_built=${line##* for }
            proved=$(($(place_of "$now_built") - 1))
            tell "now $now_built"
            ;;
        "rt: "*": another copy of the repository is building"*)
            line=${line#rt: }
            tell "${line%%:*} waits for another copy of the repository, which builds the same"
            ;;
        "so far: "[0-9]*" of "[0-9]*" functions checked"* | "checked "*", "[0-9]*" of "*[0-9])
            line=${line#so far: }
            line=${line%% functions*}
            if [ $(($(date +%s) - told_at)) -ge 60 ]; then
                tell "now $now_built, ${line##*, } functions"
            fi
            ;;
        "logic=proved functions="*)
            proved=$(place_of "$now_built")
            ;;
        "rt ended with status "*) code=${line##* } ;;
        esac
    done 3> "$1"
    # (where rt had nothing to prove it began no crate)
    [ "$code" -ne 0 ] || proved=$crate_count
    tell
    return "$code"
}

# find_rt: sets `rt` to the kit's command: RT, or that on the PATH, or else where the kit usually lies
find_rt() {
    rt=${RT:-$(command -v rt || echo /opt/rattle/bin/rt)}
    [ -x "$rt" ] || { echo "the kit's rt was not found: put it on the PATH, or name it in RT" >&2; return 1; }
}

# build_program TOP CRATE LOG WORD..: proves and builds the program of a crate in the repository at TOP, runs it on these
# words, which are to ask for next to nothing, and sets `program` to its path.
build_program() {
    top_folder=$1
    crate=$2
    log=$3
    shift 3
    find_rt || return 1
    program=$top_folder/crates/$crate/out/$crate
    crates=$(crates_below "$top_folder/crates.txt" "$crate")
    crate_count=$(printf '%s\n' "$crates" | grep -c .)
    started_at=$(date +%s)
    told_at=$started_at
    proved=0
    echo "building $crate: $crate_count crates, each proved before it is built. The whole log is $log" >&2
    echo "Where earlier builds are kept this takes seconds, and where none is more than half an hour on four processors." >&2
    # rt run proves what isn't proved yet, leaves the program in out/, and runs it
    if ! {
        code=0
        (cd "$top_folder/crates/$crate" && "$rt" run -- "$@") 2>&1 || code=$?
        echo "rt ended with status $code"
    } | follow_build "$log"; then
        tail -n 20 "$log" >&2
        echo "$crate was not built; the whole log is $log" >&2
        return 1
    fi
    [ -x "$program" ] || { echo "rt left no program at $program" >&2; return 1; }
}

# build_named CRATE VARIABLE GIVEN TOP LOG: sets `built` to the path of a crate's program: to GIVEN, the value of VARIABLE, where it isn't
# empty, and else to that of one that it builds
build_named() {
    if [ -z "$3" ]; then
        build_program "$4" "$1" "$5" --help || return 1
        built=$program
        return 0
    fi
    built=$3
    [ -x "$built" ] || { echo "$2 names no program: $built" >&2; return 1; }
}

# build_reproxy TOP LOG: builds reproxy, and sets `reproxy` to the program's path. Where REPROXY names a program, that one is
# taken as it is.
build_reproxy() {
    build_named reproxy REPROXY "${REPROXY:-}" "$@" || return 1
    reproxy=$built
}

# build_rewrapper TOP LOG: the same of rewrapper, and REWRAPPER.
build_rewrapper() {
    build_named rewrapper REWRAPPER "${REWRAPPER:-}" "$@" || return 1
    rewrapper=$built
}
