#!/usr/bin/env bash
# How often reproxy asks the system in a compile step of 128 files, by strace: calls that tell what stands at a path (statx), that make a
# directory (mkdir), that open a file or a directory (openat), that tell where an opened file stands (readlink), that read (read), and that
# set the mode of an opened file (fchmod); and which of them failed.
#
#   bash bench/calls.sh
#
# The files are a source and 127 headers, in eight libraries, each with its public headers in the fifth directory below the root and the
# others in the sixth; each library is searched. The compiler is a stand-in that writes an empty output. Calls of the compiler aren't counted.
set -eu
export LC_ALL=C

top=$(cd "$(dirname "$0")/.." && pwd)
. "$top/scripts/common/frames.sh"
. "$top/scripts/common/requests.sh"
. "$top/scripts/common/build.sh"
[ -n "$(type -P strace)" ] || { echo "calls: strace isn't installed" >&2; exit 1; }
build_reproxy "$top" "${TMPDIR:-/tmp}/reproxy-build.log"

libraries="base net wire text json http tool core"
headers_of_each=16
header_count=127

work=$(mktemp -d /tmp/reproxy-bench.XXXXXX)
trap 'rm -rf "$work"' EXIT
root=$work/root
source=$root/project/src/main.cc
mkdir -p "$root/project/src" "$root/out"

made=0
for library in $libraries; do
    public=$root/project/libs/$library/include/$library
    mkdir -p "$public/detail"
    for ((one = 1; one <= headers_of_each && made < header_count; one++, made++)); do
        name=header$one.h
        ((one % 2 == 0)) || name=detail/$name
        printf '#pragma once\n#include <%s/header2.h>\n' "$library" > "$public/$name"
        echo "#include <$library/$name>" >> "$source"
    done
done

cat > "$work/cxx" << 'END'
#!/bin/sh
while [ $# -gt 0 ]; do
    [ "$1" != -o ] || : > "$2"
    shift
done
END
chmod +x "$work/cxx"

words=("$work/cxx" -c ../project/src/main.cc -o main.o)
for library in $libraries; do
    words+=(-I "../project/libs/$library/include")
done
compile_request "${words[@]}" > "$work/payload"
frame 1 "$work/payload" > "$work/request"

strace -f -o "$work/calls" "$reproxy" exec --root "$root" < "$work/request" > "$work/reply"
reply_in_words "$work/reply" | grep -qx 'kind: Done' || { echo "calls: the reply is no Done" >&2; exit 1; }

# the proxy's are the calls of the process that comes first, and of its threads; each other process starts a program
awk '
NR == 1 { first = $1 }
$2 ~ /^execve\(/ && $1 != first { other[$1] }
{ pid[NR] = $1; call[NR] = $2; sub(/\(.*/, "", call[NR]); failed[NR] = / = -1 / }
END {
    count_of_names = split("statx mkdir openat readlink read fchmod", names)
    for (i = 1; i <= NR; i++) {
        if (pid[i] in other) continue
        count[call[i]]++
        lost[call[i]] += failed[i]
    }
    for (i = 1; i <= count_of_names; i++) print names[i] ": " count[names[i]] + 0 ", of which " lost[names[i]] + 0 " failed"
}' "$work/calls"
