#!/usr/bin/env bash
# How long `gather` takes over a source tree in memory: milliseconds a call.
#
#   bash bench/gather.sh [ROUNDS]
#
# Run by hand, on a machine that does nothing else. The program bench gathers ROUNDS times (9) and times each round by the clock;
# the script prints the median. There are 900 headers of some 40,000 bytes, each with ten includes, and a compiler that
# has four directories to search. A scan reads each file that an include can reach, whether or not its digest is kept. Of a tool
# that declares the headers, only those are read whose digest isn't kept. So both are measured with a new cache of digests each
# time, and with one that has them all. The tree is made before the first round, so that `gather` alone is measured.
set -eu
export LC_ALL=C

top=$(cd "$(dirname "$0")/.." && pwd)
rounds=${1:-9}
. "$top/scripts/common/build.sh"
build_program "$top" bench "${TMPDIR:-/tmp}/bench-build.log" gather warm 3 1
bench=$program

# median: the middle one of the lines, from microseconds to milliseconds
median() {
    sort -g | awk '{ line[NR] = $1 } END { printf "%.1f", (line[int((NR + 1) / 2)] + line[int((NR + 2) / 2)]) / 2000 }'
}

# tell WORK WHAT
tell() {
    echo "$2: $("$bench" gather "$1" 900 "$rounds" 2>&1 > /dev/null | median) milliseconds"
}

tell compile "a translation unit that reaches 900 headers, no digest kept"
tell compile-warm "a translation unit that reaches 900 headers, all digests kept"
tell cold "a tool that declares them, no digest kept"
tell warm "a tool that declares them, all digests kept"
