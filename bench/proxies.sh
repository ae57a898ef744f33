# What the benchmarks of steps through `rewrapper` and `reproxy serve` start, and how they end it. To be sourced by bash, before the
# directory of sources is entered; it makes a directory `work` with a directory `root` for the sources in it, and sets:
#
#   scratch   where sandboxes are that are to be in memory: BENCH_SCRATCH (/dev/shm)
#
# `work` is in the variable BENCH_ROOT (/var/tmp). It is removed, and what was started ended, as the script exits.
# shellcheck shell=bash

# How many tenths of a second a program may take to begin to listen.
start_limit=100

work=$(mktemp -d "${BENCH_ROOT:-/var/tmp}/reproxy-bench.XXXXXX")
root=$work/root
scratch=${BENCH_SCRATCH:-/dev/shm}
started=()
stop() {
    [ ${#started[@]} -eq 0 ] || kill "${started[@]}" 2> /dev/null || true
    rm -rf "$work"
}
trap stop EXIT
mkdir "$root"

# wait_for NAME: until something listens at this socket
wait_for() {
    for ((tenth = 0; tenth < start_limit; tenth++)); do
        [ -S "$work/$1" ] && return 0
        sleep 0.1
    done
    echo "nothing listens at $work/$1" >&2
    return 1
}

# serve_at NAME DIRECTORY SLOTS OPTION..: a proxy that listens at the socket NAME, has its sandboxes in DIRECTORY, and SLOTS runs at once
serve_at() {
    "$reproxy" serve --root "$root" --listen "unix://$work/$1" --scratch "$2" --slots "${@:3}" 2> "$work/log-$1" &
    started+=($!)
    wait_for "$1"
}

# client NAME: the words by which a command goes through the proxy at this socket
client() {
    echo "$rewrapper -server_address=unix://$work/$1 -exec_root=$root -exec_strategy=local -labels=type=compile -env_var_allowlist=PATH --"
}

# start_pair PROCESSES: the daemon of bench/pair.c at the socket `in_c`, with so many processes. Where there is no C compiler there is
# none, and `pair` is empty.
start_pair() {
    pair=
    type -P cc > /dev/null || return 0
    cc -O2 -o "$work/pair" "$top/bench/pair.c" || return 0
    pair=$work/pair
    in_c=$work/in-c
    "$pair" daemon "$in_c" "$scratch" "$root" "$1" &
    started+=($!)
    wait_for in-c
}
