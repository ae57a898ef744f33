#!/usr/bin/env bash
# How fast the HTTP/2 crates are on one processor: DATA through a connection, header blocks, and text out of the Huffman code.
#
#   bash bench/h2.sh [REPEATS]
#
# Run by hand. The program bench does each work REPEATS times (5). The script prints the median by the processor's time in
# user mode, so that other programs on the machine count little. DATA comes in frames of 16,384 bytes and pieces of 8,192, and
# after each piece the events and the output are taken.
set -eu
export LC_ALL=C

top=$(cd "$(dirname "$0")/.." && pwd)
repeats=${1:-5}
. "$top/scripts/common/build.sh"
build_program "$top" bench "${TMPDIR:-/tmp}/bench-build.log" h2 data 2
bench=$program

# median WORK ROUNDS: seconds of the processor
median() {
    local turn TIMEFORMAT=%U
    for ((turn = 0; turn < repeats; turn++)); do
        { time "$bench" h2 "$1" "$2" > /dev/null; } 2>&1
    done | sort -g | awk '{ line[NR] = $1 } END { print (line[int((NR + 1) / 2)] + line[int((NR + 2) / 2)]) / 2 }'
}

# rate SECONDS AMOUNT: how many a second
rate() {
    awk -v s="$1" -v n="$2" 'BEGIN { if (s > 0) printf "%.1f", n / s; else print "more than can be told" }'
}

data=100000     # of 32,768 bytes each
blocks=1000000
huffman=2000    # of 51,200 bytes of text each
echo "DATA: $(rate "$(median data $data)" "$(awk -v n=$data 'BEGIN { print n * 32768 / 1e6 }')") MB/s"
echo "header blocks: $(rate "$(median blocks $blocks)" $blocks) a second"
echo "Huffman: $(rate "$(median huffman $huffman)" "$(awk -v n=$huffman 'BEGIN { print n * 51200 / 1e6 }')") MB/s of text"
