# The requests of the examples. To be sourced, behind frames.sh.
# shellcheck shell=sh
#
# They are for the files below `root`, of the strategy in `strategy` (1 local, 2 remote, 3 remote with local fallback), and take a
# result of the farm's cache where `accept_cached` is 1. The numbers are the fields'.

strategy=1
accept_cached=0

begin_request() {
    number 1 1 # version
    text 2 "$root"
}

words() {
    for word in "$@"; do
        text 3 "$word"
    done
}

# environment_and_kind KIND DIRECTORY: KIND is 1 for a tool and 2 for a compile step; without DIRECTORY it runs in the root
environment_and_kind() {
    pair 4 PATH /usr/local/bin:/usr/bin:/bin # environment
    [ -z "${2-}" ] || text 5 "$2"            # working directory
    number 6 "$strategy"
    number 7 "$1"
}

# finish_request: an option that is 0 is left out
finish_request() {
    [ "$accept_cached" -eq 0 ] || number 12 "$accept_cached"
}

# copy_request: `cat a > b` in the root, with the input a and the output b
copy_request() {
    begin_request
    words /bin/sh -c 'cat a > b'
    environment_and_kind 1
    text 8 a
    text 10 b
    finish_request
}

# parent_request PATH: a tool that copies the program which runs it to a path outside of the sandbox, by `copy_parent` of try.sh
parent_request() {
    begin_request
    words /bin/sh -c "$copy_parent" sh "$1"
    environment_and_kind 1
    finish_request
}

# version_request: a tool in out writes a header from version.txt
version_request() {
    begin_request
    words /bin/sh -c 'echo "#define SHAPES_VERSION \"$(cat ../version.txt)\"" > gen/version.h'
    environment_and_kind 1 out
    text 8 version.txt
    text 10 out/gen/version.h
    finish_request
}

# compile_request COMPILER WORD..: a compile step in out. It names no inputs and no outputs: these are in its words.
compile_request() {
    begin_request
    words "$@"
    environment_and_kind 2 out
    finish_request
}
