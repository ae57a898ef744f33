#!/usr/bin/env bash
# What the client and a proxy that serves add to a compile step: the time of `g++ -c` on an empty source through `rewrapper` and
# `reproxy serve`, strategy local, beside that of g++ alone, of g++ behind a client and a daemon in C that do the same file work
# (bench/pair.c), and, where it is installed, of g++ behind ccache that keeps nothing; what the client's own start costs; and how long the proxy has the processor while 16 sessions wait for a command that sleeps. There is no farm:
# the remote side of each race has failed by then, so what waits is the local one. Then, with a farm that says nothing: while eight
# racing sessions wait for both sides, and eight remote ones for the farm. Few calls, or a busy machine, tell nothing of a difference.
#
#   bash bench/serve.sh [ROUNDS] [CALLS]
#
# Run by hand, on a machine that does nothing else. All are measured in one run and by turns: each of ROUNDS rounds (20) times CALLS calls
# (20) of each. The script prints the median over the rounds of the time per call, and the medians of the rounds' differences. The first
# round warms up and doesn't count. Each call of a round writes an object of its own, as in a first build. bench/proxies.sh says where
# the files are. There are two proxies, one with its sandboxes in memory, as the daemon in C has, and one with them in /tmp. On ext4 a new file or directory takes the longer the more of its neighbours were removed in the last minutes, and each
# sandbox that goes is such a neighbour of the next one.
set -eu
export LC_ALL=C

top=$(cd "$(dirname "$0")/.." && pwd)
rounds=${1:-20}
calls=${2:-20}
. "$top/scripts/common/build.sh"
. "$top/bench/times.sh"
build_reproxy "$top" "${TMPDIR:-/tmp}/reproxy-build.log"
build_rewrapper "$top" "${TMPDIR:-/tmp}/rewrapper-build.log"

# How many sessions wait at once, and for how many seconds.
sleepers=16
sleep_seconds=5

. "$top/bench/proxies.sh"
cd "$root"
: > empty.cc
serve_at in-memory "$scratch" "$sleepers"
serve_at in-tmp /tmp "$sleepers"
start_pair 1
in_memory=$(client in-memory)
in_tmp=$(client in-tmp)

# In what follows CALL is the number of the call in its round.
run_alone() {
    g++ -c empty.cc -o "alone-$call.o"
}

# run_proxy WORDS: behind these words
run_proxy() {
    $1 g++ -c empty.cc -o "through-$call.o"
}

run_pair() {
    if [ -n "$pair" ]; then
        "$pair" client "$in_c" "in-c-$call.o" empty.cc -- g++ -c empty.cc -o "in-c-$call.o"
    fi
}

run_ccache() {
    if [ -n "$ccache" ]; then
        CCACHE_DIR=$work/ccache CCACHE_RECACHE=1 ccache g++ -c empty.cc -o "kept-$call.o"
    fi
}

# (a file that is cut and written again costs a write to the disk, so what is printed goes nowhere)
run_client() {
    "$rewrapper" --help > /dev/null
}

run_true() {
    "$alone" > /dev/null
}

alone=$(type -P true)
ccache=$(type -P ccache || true)
call=0
run_alone
for words in "$in_memory" "$in_tmp"; do
    run_proxy "$words"
    cmp -s alone-0.o through-0.o || { echo "the object isn't that of g++ alone" >&2; exit 1; }
    rm through-0.o
done

for ((round = 0; round <= rounds; round++)); do
    of_alone=$(time_of run_alone)
    of_proxy=$(time_of run_proxy "$in_memory")
    rm through-*.o
    of_slow=$(time_of run_proxy "$in_tmp")
    of_pair=$(time_of run_pair)
    of_ccache=$(time_of run_ccache)
    of_client=$(time_of run_client)
    of_true=$(time_of run_true)
    rm ./*.o
    if ((round > 0)); then
        echo "$of_alone $of_proxy $of_ccache $of_client $of_true $of_slow $of_pair"
    fi
done > "$work/times"

# microseconds EXPRESSION: the median of what awk makes of a round's times, a call
microseconds() {
    awk -v n="$calls" "{ print ($1) / n }" "$work/times" | median
}

echo "$rounds rounds of $calls calls each, by turns; microseconds a call"
echo "g++ alone: $(microseconds '$1')"
echo "through rewrapper and reproxy serve, sandboxes in $scratch: $(microseconds '$2'), which adds $(microseconds '$2 - $1')"
echo "the same, sandboxes in /tmp: $(microseconds '$6'), which adds $(microseconds '$6 - $1')"
[ -z "$pair" ] || echo "through the client and daemon in C: $(microseconds '$7'), which adds $(microseconds '$7 - $1')"
[ -z "$ccache" ] || echo "behind ccache: $(microseconds '$3'), which adds $(microseconds '$3 - $1')"
echo "rewrapper --help: $(microseconds '$4'), and $alone: $(microseconds '$5')"

# ticks_of PROCESS: hundredths of a second that it has had a processor
ticks_of() {
    awk '{ print $14 + $15 }' "/proc/$1/stat"
}

# begin_sleeper NAME STRATEGY: a session of the proxy at this socket, whose command sleeps
begin_sleeper() {
    "$rewrapper" -server_address="unix://$work/$1" -exec_root="$root" -exec_strategy="$2" -env_var_allowlist=PATH \
        -- sleep "$sleep_seconds" 2>> "$work/log-$1" &
    clients+=($!)
}

# ticks_of_wait PROCESS: those of a proxy while all of its sessions wait
ticks_of_wait() {
    # (all have begun)
    sleep 2
    local before
    before=$(ticks_of "$1")
    sleep $((sleep_seconds - 3))
    echo $(($(ticks_of "$1") - before))
}

waiting="waited for $((sleep_seconds - 3)) seconds"
clients=()
for ((one = 0; one < sleepers; one++)); do
    begin_sleeper in-memory racing
done
ticks=$(ticks_of_wait "${started[0]}")
wait "${clients[@]}"
echo "the proxy, while $sleepers racing sessions $waiting: $ticks hundredths of a second"

# A farm that takes connections and says nothing. A racing session waits for it and for its command, a remote one for the farm alone.
python3 -c '
import socket
farm = socket.create_server(("127.0.0.1", 0))
print(farm.getsockname()[1], flush=True)
taken = []
while True:
    taken.append(farm.accept())
' > "$work/port" &
started+=($!)
until [ -s "$work/port" ]; do sleep 0.1; done
serve_at silent "$scratch" "$sleepers" --remote "127.0.0.1:$(cat "$work/port")"
clients=()
for ((one = 0; one < sleepers / 2; one++)); do
    begin_sleeper silent remote
done
remote_clients=("${clients[@]}")
clients=()
for ((one = 0; one < sleepers / 2; one++)); do
    begin_sleeper silent racing
done
ticks=$(ticks_of_wait "${started[-1]}")
wait "${clients[@]}"
# (these would wait for long)
kill "${remote_clients[@]}"
echo "the same, while $((sleepers / 2)) racing and $((sleepers / 2)) remote ones $waiting for a silent farm: $ticks hundredths of a second"
