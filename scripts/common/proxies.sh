# Starts `reproxy serve`, and has `rewrapper` end it. To be sourced. The script has a function fail, and sets work (a directory), socket (a
# path), reproxy, rewrapper (programs) and remote (the address of a farm, or nothing).
# shellcheck shell=sh disable=SC2154

# How many seconds the proxy may take to begin to listen, and to end.
start_limit=10
end_limit=20

proxy=
stop_proxy() {
    if [ -n "$proxy" ]; then
        kill "$proxy" 2> /dev/null || true
        wait "$proxy" 2> /dev/null || true
        proxy=
    fi
}

# start_proxy ROOT: starts the proxy for the tree at ROOT
start_proxy() {
    set -- --root "$1" --listen "unix://$socket"
    [ -z "$remote" ] || set -- "$@" --remote "$remote"
    "$reproxy" serve "$@" 2> "$work/proxy-log" &
    proxy=$!
    seconds=0
    until [ -S "$socket" ]; do
        kill -0 "$proxy" 2> /dev/null || { cat "$work/proxy-log" >&2; fail "the proxy ended before it listened"; }
        [ "$seconds" -lt "$start_limit" ] || fail "the proxy didn't listen within $start_limit seconds"
        seconds=$((seconds + 1))
        sleep 1
    done
}

# end_proxy: has the proxy end, and waits for that
end_proxy() {
    "$rewrapper" -server_address="unix://$socket" -shutdown_proxy || fail "the proxy didn't say that it ends"
    (sleep "$end_limit"; kill "$proxy") > /dev/null 2>&1 &
    watcher=$!
    status=0
    wait "$proxy" || status=$?
    proxy=
    kill "$watcher" 2> /dev/null || true
    [ "$status" -eq 0 ] || fail "the proxy ended with status $status"
}
