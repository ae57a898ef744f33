#!/usr/bin/env bash
# What reproxy adds to a command: the time of `reproxy exec` on the command `true` beside the time of `true` alone, as a ratio; and what
# the strategy racing adds to the strategy local.
#
#   bash bench/exec.sh [ROUNDS] [CALLS]
#
# Run by hand, on a machine that does nothing else. All are measured in one run and by turns: each of ROUNDS rounds (20) times
# CALLS calls (50) of `true` alone, and then as many of `reproxy exec` with each strategy, which reads the same Request frame from
# a file each time. All are started by this shell, with their streams on files, so that each has the cost of one start in it. The
# script prints the median over the rounds of the time per call, and the medians of the rounds' ratios and differences. The request
# has no inputs and no outputs, so this measures two processes, a sandbox made and removed, and the frames; racing has threads and
# locks besides, and a farm that none of its calls reaches. The first round warms up and doesn't count.
set -eu
export LC_ALL=C

top=$(cd "$(dirname "$0")/.." && pwd)
rounds=${1:-20}
calls=${2:-50}
. "$top/scripts/common/frames.sh"
. "$top/scripts/common/build.sh"
. "$top/bench/times.sh"
build_reproxy "$top" "${TMPDIR:-/tmp}/reproxy-build.log"

work=$(mktemp -d /tmp/reproxy-bench.XXXXXX)
# (each sandbox is a directory that is made and removed, which on some disks costs more than all else)
scratch=${BENCH_SCRATCH:-/dev/shm}
trap 'rm -rf "$work"' EXIT
root=$work/root
mkdir "$root"
alone=$(type -P true)

# request STRATEGY: its number
request() {
    number 1 1 # version
    text 2 "$root"
    text 3 "$alone" # words
    number 6 "$1"
    number 7 1 # kind: tool
}
local=1
racing=4
for strategy in "$local" "$racing"; do
    request "$strategy" > "$work/payload"
    frame 1 "$work/payload" > "$work/request-$strategy"
done

# (a file that is cut and written again costs a write to the disk, so what is printed goes nowhere)
run_alone() {
    "$alone" < /dev/null > /dev/null
}

run_exec() {
    "$reproxy" exec --root "$root" --scratch "$scratch" < "$work/request-$1" > "$2" 2> /dev/null
}

for strategy in "$local" "$racing"; do
    run_exec "$strategy" "$work/out"
    reply_in_words "$work/out" | grep -qx 'kind: Done' || { echo "the reply is no Done" >&2; exit 1; }
done

for ((round = 0; round <= rounds; round++)); do
    of_alone=$(time_of run_alone)
    of_local=$(time_of run_exec "$local" /dev/null)
    of_racing=$(time_of run_exec "$racing" /dev/null)
    if ((round > 0)); then
        echo "$of_alone $of_local $of_racing"
    fi
done > "$work/times"

echo "$rounds rounds of $calls calls each, by turns"
echo "$alone alone: $(awk -v n="$calls" '{ print $1 / n }' "$work/times" | median) microseconds a call"
echo "reproxy exec: $(awk -v n="$calls" '{ print $2 / n }' "$work/times" | median) microseconds a call"
echo "ratio: $(awk '{ print $2 / $1 }' "$work/times" | median)"
echo "racing adds: $(awk -v n="$calls" '{ print ($3 - $2) / n }' "$work/times" | median) microseconds a call"
