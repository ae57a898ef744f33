#!/usr/bin/env bash
# How long it takes to make the tree of an action's files, and the action's key with it. Over trees of 1,000, 10,000 and 50,000 files:
# microseconds a file for the tree, so that growth is seen, and milliseconds for the whole key.
#
#   bash bench/tree.sh [ROUNDS]
#
# Run by hand, on a machine that does nothing else. The program bench makes each key ROUNDS times (9) and times each round by the
# clock; the script prints the medians. The files lie in a hundred directories whose paths have three to six names, and come in an order
# of their own; the command is a compile step of sixty words. List and command are made before the first round, so that `build` and
# `action_of` alone are measured.
set -eu
export LC_ALL=C

top=$(cd "$(dirname "$0")/.." && pwd)
rounds=${1:-9}
. "$top/scripts/common/build.sh"
build_program "$top" bench "${TMPDIR:-/tmp}/bench-build.log" tree 10 1
bench=$program

# median FIELD BY: the middle one of these fields of the lines, divided
median() {
    awk -v field="$1" '{ print $field }' | sort -g |
        awk -v by="$2" '{ line[NR] = $1 } END { printf "%.2f", (line[int((NR + 1) / 2)] + line[int((NR + 2) / 2)]) / 2 / by }'
}

for files in 1000 10000 50000; do
    rounds_of=$("$bench" tree "$files" "$rounds" 2>&1 > /dev/null)
    tree=$(echo "$rounds_of" | median 1 "${files}000")
    key=$(echo "$rounds_of" | median 2 1000000)
    echo "$files files: the tree $tree microseconds a file, the key $key milliseconds"
done
