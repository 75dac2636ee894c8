#!/usr/bin/env bash
# What each kernel gains on threads, as a table: examples/measure-kernels.sh [PROGRAM [RUNS]]
# Its columns: tasks; messages on 4 processors; the plan's time on 1, 2, 4 and 8 processors; the milliseconds of `seq`,
# of `run` on 1, 2 and 4 processors, and of `run` on 4 if no loop makes a turn, which is what reading, checking, threads
# and messages take; how many times as fast as `seq` the `run` on 4 is. Each time is the least of RUNS runs (25), all
# commands in turn. It fails if a command fails, or if `run` doesn't print what `seq` prints.
set -euo pipefail
here=$(dirname "$0")
program=${1:-${PYRROS:-$here/../crates/pyrros/out/pyrros}}
runs=${2:-25}
work=$(mktemp -d)
trap 'rm -rf "$work"' EXIT
TIMEFORMAT=%R

# appends the seconds of a command to a file: seconds WORD INPUT
seconds() {
    { time "$program" "$1" < "$work/$2" > "$work/$2.words" 2>&3; } 3>&2 2>> "$work/$2.times"
}

# the least milliseconds of a command on an input
least() {
    sort -n "$work/$1.times" | awk 'NR == 1 { printf "%.0f", 1000 * $1 }'
}

# a row of the table: row KERNEL SIZE ..
row() {
    local i processors
    "$here/$1.sh" "${@:2}" > "$work/graph"
    for processors in 1 2 4; do "$program" compile "$processors" < "$work/graph" > "$work/bundle$processors"; done
    sed 's/^\(loop [^ ]*\) .*/\1 0/' "$work/bundle4" > "$work/idle"
    rm -f "$work"/*.times
    for ((i = 0; i < runs; i++)); do
        seconds seq graph
        for processors in 1 2 4; do
            seconds run "bundle$processors"
            cmp "$work/graph.words" "$work/bundle$processors.words"
        done
        seconds run idle
    done
    printf '| `%s` | %s | %s |' "$*" "$(grep -c '^task' "$work/graph")" "$(grep -c '^send' "$work/bundle4")"
    for processors in 1 2 4 8; do
        printf ' %s |' "$("$program" gantt "$processors" < "$work/graph" | sed -n '1s/time //p')"
    done
    for input in graph bundle1 bundle2 bundle4 idle; do printf ' %s |' "$(least "$input")"; done
    awk -v seq="$(least graph)" -v run="$(least bundle4)" 'BEGIN { printf " %.1f |\n", seq / (run > 0 ? run : 1) }'
}

printf '| kernel | tasks | messages | plan 1 | plan 2 | plan 4 | plan 8 |'
printf ' `seq` | `run` 1 | `run` 2 | `run` 4 | no turns | faster |\n'
printf '|---|---|---|---|---|---|---|---|---|---|---|---|---|\n'
row matrix 80
row transform 64
row solve 60 12
row stencil 8 60 10
row subsequence 16 64
row sort 8 8
