#!/usr/bin/env bash
# How fast `directives` reads the machine's C++ library: megabytes a second, a line for each of ten rounds.
#
#   bash bench/directives.sh [COMPILER]
#
# Run by hand, on a machine that does nothing else. The texts are all files below the folders that COMPILER (g++) names as its
# own places of C++ headers, in `-E -v`. They are read into memory first, so that a round measures `directives` alone; the first
# round warms up.
set -eu
export LC_ALL=C

top=$(cd "$(dirname "$0")/.." && pwd)
compiler=${1:-g++}
rt=${RT:-$(command -v rt || echo /opt/rattle/bin/rt)}

work=$(mktemp -d /tmp/directives-bench.XXXXXX)
trap 'rm -rf "$work"' EXIT

"$compiler" -E -v -x c++ /dev/null 2>&1 > "$work/text" |
    sed -n '/^#include <\.\.\.>/,/^End of search list/s/^ \(.*\/c++\/.*\)$/\1/p' |
    while read -r folder; do find "$folder" -type f; done | sort -u > "$work/files"

cd "$top/crates/bench"
"$rt" run -- lex < "$work/files" > "$work/log" 2>&1 || { tail -n 20 "$work/log" >&2; exit 1; }
grep 'MB/s' "$work/log"
