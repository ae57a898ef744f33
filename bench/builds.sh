#!/usr/bin/env bash
# What the client and a proxy that serves add to steps that read many files, and to whole builds, strategy local.
#
# The steps have no header, or 299 of about 1 kB or about 6 kB each, whose digests are kept. They are called alone, through the proxy, with
# a word more that the proxy doesn't take, so that the client runs them in place, and through a client and a daemon in C that do the same
# file work (bench/pair.c). A program that only writes an object stands in for the
# compiler, since what g++ takes differs more from call to call than what is measured. The builds, with ninja, 16 steps at once, are by g++
# itself: one of 160 short steps, whose sources include 20 small headers each, and one of 48 steps whose sources include as many, and four
# headers of the C++ library, as most sources do. They are run without a proxy, through it, through that client and daemon, and behind a
# client that only starts the command, which tells what one process more costs.
#
#   bash bench/builds.sh [ROUNDS]
#
# Run by hand, on a machine that does nothing else, with ninja and a C compiler. All are measured in one run and by turns: each of ROUNDS
# rounds (10) times 20 calls of each step, and each build once. The script prints the medians over the rounds, and those of the rounds'
# differences from, or ratios to, what is called alone; and how many times what the client and daemon in C add the proxy adds, which
# changes less than milliseconds do from hour to hour and from machine to machine. The first round warms up and doesn't count. Objects are
# removed between the rounds.
# Sandboxes are in memory, as those of the daemon in C are; at the end come rounds with sandboxes in /tmp, apart, since a disk that removes
# files is slow for all. bench/proxies.sh says where the files are.
set -eu
export LC_ALL=C

top=$(cd "$(dirname "$0")/.." && pwd)
rounds=${1:-10}
calls=20
. "$top/scripts/common/build.sh"
. "$top/bench/times.sh"
build_reproxy "$top" "${TMPDIR:-/tmp}/reproxy-build.log"
build_rewrapper "$top" "${TMPDIR:-/tmp}/rewrapper-build.log"

header_count=299
short_count=160
full_count=48
at_once=16

. "$top/bench/proxies.sh"
mkdir "$root/include"
cd "$root"

# headers FOLDER PARTS SOURCE: headers below a folder, in eight libraries, of so many parts each, and a source that includes all
headers() {
    local library
    for ((header = 0; header < header_count; header++)); do
        library=$1$((header % 8))
        mkdir -p "include/$library"
        {
            echo '#pragma once'
            for ((part = 0; part < $2; part++)); do
                echo "// What part $part of the header $header has: a type with two members, and the sum of these."
                echo "struct Type${header}_$part { int a, b; int sum() const { return a + b; } };"
            done
        } > "include/$library/header$header.h"
        echo "#include \"$library/header$header.h\"" >> "$3"
    done
}

# A header of eight parts, or of forty, has about 1 kB, or 6 kB. The sources of the builds include twenty of the short ones each.
: > empty.cc
headers library 8 small.cc
headers large 40 large.cc
declare -A headers_in=([empty]="" [small]=$(echo include/library*/*.h) [large]=$(echo include/large*/*.h))

# headers_of SOURCE: those of our own that the source with this number includes
headers_of() {
    local one header
    for ((one = 0; one < 20; one++)); do
        header=$((($1 * 7 + one) % header_count))
        echo "library$((header % 8))/header$header.h"
    done
}

# sources KIND COUNT INCLUDE..: so many sources, which begin with these headers of the C++ library
sources() {
    local kind=$1 count=$2
    shift 2
    for ((source = 0; source < count; source++)); do
        {
            for name in "$@"; do
                echo "#include <$name>"
            done
            headers_of "$source" | sed 's/.*/#include "&"/'
            echo "int value$source() { return $source; }"
        } > "$kind$source.cc"
    done
}
sources short "$short_count"
sources full "$full_count" iostream map string vector

serve_at in-memory "$scratch" "$at_once"
serve_at in-tmp /tmp "$at_once"
start_pair "$at_once"
[ -n "$pair" ] || { echo "builds.sh: there is no C compiler" >&2; exit 1; }
type -P ninja > /dev/null || { echo "builds.sh: there is no ninja" >&2; exit 1; }

# What stands before the command in each way to call it; the client in C is told the object and the inputs too.
declare -A words=([alone]="" [memory]=$(client in-memory) [refused]=$(client in-memory) [tmp]=$(client in-tmp) [start]="$pair start")

# What stands in for the compiler.
mkdir "$work/bin"
stand_in=$work/bin/g++
ln -s "$pair" "$stand_in"

# step NAME WAY: the step of a source, in one of these ways or in C
step() {
    local before=${words[$2]-}
    if [ "$2" = pair ]; then
        before="$pair client $in_c step-$call.o $1.cc ${headers_in[$1]} --"
    fi
    if [ "$2" = refused ]; then
        $before "$stand_in" -save-temps -Iinclude -c "$1.cc" -o "step-$call.o"
    else
        $before "$stand_in" -Iinclude -c "$1.cc" -o "step-$call.o"
    fi
}

# ninja_file KIND COUNT WAY: the build file of a build of these sources
ninja_file() {
    local before=${words[$3]-}
    if [ "$3" = pair ]; then
        before="$pair client $in_c \$out \$in \$headers --"
    fi
    {
        echo "rule compile"
        echo "  command = $before g++ -Iinclude -c \$in -o \$out"
        for ((source = 0; source < $2; source++)); do
            echo "build $1-$3/$1$source.o: compile $1$source.cc"
            echo "  headers = $(headers_of "$source" | sed 's|^|include/|' | tr '\n' ' ')"
        done
    } > "$1-$3.ninja"
    mkdir "$1-$3"
}
for way in alone memory pair start tmp; do
    ninja_file short "$short_count" "$way"
    ninja_file full "$full_count" "$way"
done

# build KIND WAY: its time, in microseconds; its objects are removed first
build() {
    local begin
    rm -f "$1-$2"/*.o
    begin=$(now)
    ninja -f "$1-$2.ninja" -j "$at_once" > /dev/null
    echo $(($(now) - begin))
}

# measure WAY..: a line for each step and build in these ways, and each round: the round, the name, the way, and microseconds
measure() {
    for ((round = 0; round <= rounds; round++)); do
        for name in empty small large; do
            for way in "$@"; do
                if [ "$way" != start ]; then
                    echo "$round $name $way $(time_of step "$name" "$way")"
                    rm step-*.o
                fi
            done
        done
        for name in short full; do
            for way in "$@"; do
                if [ "$way" != refused ]; then
                    echo "$round $name $way $(build "$name" "$way")"
                fi
            done
        done
    done
}

# of_rounds NAME WAY EXPRESSION: the median over the rounds of what awk makes of the time in this way, t, of that alone, a, and of that
# through the client and daemon in C, c
of_rounds() {
    awk -v name="$1" -v way="$2" -v calls="$calls" '
    $1 == 0 || $2 != name { next }
    $3 == "alone" { alone[$1] = $4 }
    $3 == "pair" { in_c[$1] = $4 }
    $3 == way { taken[$1] = $4 }
    END { for (round in taken) { t = taken[round]; a = alone[round]; c = in_c[round]; print '"$3"' } }' "$work/times" | median
}

# tell WAY WORDS: what is measured in this way
tell() {
    echo "$2: a step of one file takes $(of_rounds empty "$1" '(t - a) / calls / 1000') ms more, one of $((header_count + 1)) files of" \
        "about 1 kB $(of_rounds small "$1" '(t - a) / calls / 1000'), of about 6 kB $(of_rounds large "$1" '(t - a) / calls / 1000')"
    tell_builds "$1" "$2"
}

# tell_builds WAY WORDS: of the builds alone
tell_builds() {
    echo "$2: a build of $short_count short steps takes $(of_rounds short "$1" 't / a') times as long, one of $full_count steps with headers of" \
        "the C++ library $(of_rounds full "$1" 't / a')"
}

measure alone memory refused pair start > "$work/times"
echo "$rounds rounds, by turns; alone the steps take $(of_rounds small alone 't / calls / 1000') ms, the builds $(of_rounds short alone 't / 1000')" \
    "and $(of_rounds full alone 't / 1000')"
tell memory "through the proxy, sandboxes in $scratch"
echo "in place, by a word: a step of one file takes $(of_rounds empty refused '(t - a) / calls / 1000') ms more, one of" \
    "$((header_count + 1)) files of about 1 kB $(of_rounds small refused '(t - a) / calls / 1000')"
tell pair "through the client and daemon in C"
echo "what the proxy adds is so many times what these in C add: to a step of one file $(of_rounds empty memory '(t - a) / (c - a)')," \
    "of $((header_count + 1)) files of about 1 kB $(of_rounds small memory '(t - a) / (c - a)'), of about 6 kB" \
    "$(of_rounds large memory '(t - a) / (c - a)')"
tell_builds start "behind a client that only starts the command"
measure alone tmp > "$work/times"
tell tmp "through the proxy, sandboxes in /tmp"
