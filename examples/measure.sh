#!/usr/bin/env bash
# How long each command takes on generated graphs of 256, 1,024 and 4,096 tasks, as a table of seconds; then how much
# faster chains of heavy tasks run on 4 processors than one by one: examples/measure.sh [PROGRAM]
# It fails where a command fails, or where `run` doesn't print what `seq` prints.
set -euo pipefail
here=$(dirname "$0")
program=${1:-$here/../crates/pyrros/out/pyrros}
work=$(mktemp -d)
trap 'rm -rf "$work"' EXIT
TIMEFORMAT=%R
sizes='256 1024 4096'

# the seconds of a command: seconds INPUT OUTPUT WORD..
seconds() {
    local input=$1 output=$2
    shift 2
    { time "$program" "$@" < "$input" > "$output" 2>&3; } 3>&2 2>&1
}

# a row of the table, for each number of tasks in the place of N: row INPUT OUTPUT WORD..
row() {
    local input=$1 output=$2 cells='' size
    shift 2
    for size in $sizes; do
        cells="$cells $(seconds "$work/$input.$size" "$work/$output.$size" "${@//N/$size}") |"
    done
    printf '| `%s` |%s\n' "$*" "$cells"
}

# the least seconds of five runs, since other programs only make a run slower
least() {
    for _ in 1 2 3 4 5; do seconds "$@"; done | sort -n | sed -n 1p
}

# two outputs have to be equal
agree() {
    cmp "$work/$1" "$work/$2"
}

for size in $sizes; do : > "$work/nothing.$size"; done
printf '| command | 256 tasks | 1,024 tasks | 4,096 tasks |\n|---|---|---|---|\n'
row nothing graph make N
row graph words seq
row graph steps cluster
row graph plan gantt 64
row graph bundle compile 64
row bundle report check
row bundle run run
row nothing summary verify-make N 64
for size in $sizes; do agree "words.$size" "run.$size"; done

"$here/chains.sh" > "$work/chains"
"$program" compile 4 < "$work/chains" > "$work/chains.bundle"
one=$(least "$work/chains" "$work/chains.words" seq)
four=$(least "$work/chains.bundle" "$work/chains.run" run)
agree chains.words chains.run
times=$(awk -v one="$one" -v four="$four" 'BEGIN { printf "%.1f", one / (four > 0 ? four : 0.001) }')
printf '\n8 chains of 6 heavy tasks: `seq` %s s, `run` on 4 processors %s s, %s times as fast\n' "$one" "$four" "$times"
