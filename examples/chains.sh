#!/usr/bin/env bash
# Writes the graph text of chains of heavy tasks, to see what several processors gain:
# examples/chains.sh [CHAINS [TASKS [TURNS]]], 8 chains of 6 tasks unless told otherwise.
# Each task goes on from the word of the one before it, by TURNS turns of a linear congruential generator, of 7
# operations each; more than 142,856 turns pass the limit on the work of a task. One more task adds up the last words.
set -eu
chains=${1:-8}
tasks=${2:-6}
turns=${3:-140000}

# task $2 of chain $1
heavy_task() {
    local datum="x$1_$2" before="x$1_$(($2 - 1))"
    printf 'task t%s_%s 1000\n' "$1" "$2"
    if (($2 > 0)); then
        printf 'reads %s\nwrites %s\nset s = %s[0]\n' "$before" "$datum" "$before"
    else
        printf 'writes %s\nset s = %s\n' "$datum" "$1"
    fi
    printf 'for i %s\n' "$turns"
    printf 'set s = ((s * 6364136223846793005) + 1442695040888963407)\n'
    printf 'done\nput %s[0] = s\nend\n' "$datum"
}

for ((chain = 0; chain < chains; chain++)); do
    for ((task = 0; task < tasks; task++)); do
        printf 'data x%s_%s 1 10\n' "$chain" "$task"
    done
done
printf 'data total 1 0\n'

ends='' sum=''
for ((chain = 0; chain < chains; chain++)); do
    for ((task = 0; task < tasks; task++)); do
        heavy_task "$chain" "$task"
    done
    end=x${chain}_$((tasks - 1))
    ends="$ends $end"
    if [ -z "$sum" ]; then sum="${end}[0]"; else sum="($sum + ${end}[0])"; fi
done
printf 'task total 1\nreads%s\nwrites total\nput total[0] = %s\nend\nprint total\n' "$ends" "$sum"
