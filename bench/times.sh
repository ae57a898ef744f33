# What the benchmarks of whole programs time, and how. To be sourced by bash; it needs `calls`, how often a command is called at once.
# shellcheck shell=bash

# microseconds since 1970
now() {
    echo "${EPOCHREALTIME/[.,]/}"
}

# time_of COMMAND: its time for `calls` calls, in microseconds
time_of() {
    local begin end call
    begin=$(now)
    for ((call = 0; call < calls; call++)); do
        "$@"
    done
    end=$(now)
    echo $((end - begin))
}

# the middle one of the lines
median() {
    sort -g | awk '{ line[NR] = $1 } END { print (line[int((NR + 1) / 2)] + line[int((NR + 2) / 2)]) / 2 }'
}
