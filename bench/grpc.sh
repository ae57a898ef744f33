#!/usr/bin/env bash
# What calls of a farm over gRPC cost, beside those of grpc's C core: the time of a call of one message on an open connection, and
# how fast a blob goes up and comes down by ByteStream. Both clients call one server on loopback, grpc_peer.cc, which is grpc's C
# core too. And how much memory the process takes for a blob beside the blob's own bytes.
#
#   bash bench/grpc.sh [ROUNDS]
#
# Run by hand. The clients take turns, ROUNDS rounds (9) each, and the script prints the median of the rounds. It wants g++ and, from
# `apt-get install --no-install-recommends`: libgrpc++-dev pkg-config. Where one isn't installed it says so, and ends with status 3.
set -eu
export LC_ALL=C

top=$(cd "$(dirname "$0")/.." && pwd)
rounds=${1:-9}
calls=1000      # in each round
size=67108864   # bytes of a blob
. "$top/scripts/common/build.sh"

command -v g++ > /dev/null && pkg-config --exists grpc++ 2> /dev/null || {
    echo "bench/grpc.sh: left out: no g++, or no libgrpc++-dev and pkg-config here" >&2
    exit 3
}

work=$(mktemp -d /tmp/reproxy-bench.XXXXXX)
server=
stop() {
    [ -z "$server" ] || kill "$server" 2> /dev/null || true
    rm -rf "$work"
}
trap stop EXIT
trap 'exit 1' HUP INT TERM

build_program "$top" bench "${TMPDIR:-/tmp}/bench-build.log" all
bench=$program
# shellcheck disable=SC2046
g++ -O2 -std=c++17 -o "$work/grpc_peer" "$top/bench/grpc_peer.cc" $(pkg-config --cflags --libs grpc++) -labsl_synchronization
"$work/grpc_peer" serve > "$work/says" &
server=$!
until grep -q '^listening ' "$work/says"; do
    kill -0 "$server" 2> /dev/null || { echo "bench/grpc.sh: the server ended" >&2; exit 1; }
    sleep 0.1
done
address=$(sed -n 's/^listening //p' "$work/says")

# median FILE: of its numbers
median() {
    sort -g "$1" | awk '{ line[NR] = $1 } END { print (line[int((NR + 1) / 2)] + line[int((NR + 2) / 2)]) / 2 }'
}

# rounds_of WORK SIZE: both clients by turns. Sets `ours` and `theirs` to the medians of the microseconds.
rounds_of() {
    : > "$work/ours"
    : > "$work/theirs"
    for ((round = 0; round < rounds; round++)); do
        "$bench" grpc "$1" "$address" "$2" 1 2>> "$work/ours"
        "$work/grpc_peer" "$1" "$address" "$2" 1 >> "$work/theirs"
    done
    ours=$(median "$work/ours")
    theirs=$(median "$work/theirs")
}

# memory_of WORK: the most memory of the process in MB, without the bytes of the blob
memory_of() {
    /usr/bin/time -f '%M' -o "$work/memory" "$bench" grpc "$1" "$address" "$size" 1 2> "$work/log"
    awk -v b="$size" '{ printf "%.1f", $1 / 1000 - b / 1e6 }' "$work/memory"
}

rounds_of calls "$calls"
awk -v o="$ours" -v t="$theirs" -v n="$calls" 'BEGIN {
    printf "a call: %.1f us, grpc %.1f us, ratio %.2f\n", o / n, t / n, o / t }'
for way in write read; do
    rounds_of "$way" "$size"
    awk -v w="$way" -v o="$ours" -v t="$theirs" -v b="$size" 'BEGIN {
        printf "%s: %.0f MB/s, grpc %.0f MB/s, ratio %.2f\n", w, b / o, b / t, t / o }'
done
if [ -x /usr/bin/time ]; then
    echo "memory beside the blob: $(memory_of write) MB to write it, $(memory_of read) MB with the copy that read it"
fi
