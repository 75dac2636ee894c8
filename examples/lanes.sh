#!/bin/sh
# Writes the graph text of four lanes of equal tasks, to see how large a task must be for a gain on threads:
# examples/lanes.sh [STEPS [TURNS]], 100 steps of 14000 turns unless other numbers are given.
# In each step every lane has one task, which reads the data of its own lane and of the next one from the step before,
# of 64 words each, and runs TURNS turns of a linear congruential generator, of 7 operations each. So on 4 processors
# each task waits for a message.
exec awk -v steps="${1:-100}" -v turns="${2:-14000}" '
# whether a word of the command line is a number of the range
function is_number(word, least, greatest) { return word ~ /^[0-9]+$/ && word + 0 >= least && word + 0 <= greatest }

# the task of a lane in a step
function lane_task(step, lane,    own, next_lane, x) {
    x = "x" step "_" lane
    own = "x" step - 1 "_" lane
    next_lane = "x" step - 1 "_" (lane + 1) % 4
    print "task t" step "_" lane " " (turns < 143 ? 1 : int(turns * 7 / 1000))
    if (step > 0) print "reads " own " " next_lane "\nwrites " x "\nset s = (" own "[0] + " next_lane "[63])"
    else print "writes " x "\nset s = " lane
    print "for i " turns "\nset s = ((s * 6364136223846793005) + 1442695040888963407)\ndone"
    print "put " x "[0] = s\nput " x "[63] = (s >> 7)\nend"
}

BEGIN {
    if (!is_number(steps, 0, 1023) || !is_number(turns, 0, 142800)) {
        print "usage: lanes.sh [STEPS [TURNS]], STEPS up to 1023, TURNS up to 142800" > "/dev/stderr"
        exit 2
    }
    for (step = 0; step <= steps; step++) for (lane = 0; lane < 4; lane++) print "data x" step "_" lane " 64 2"
    for (step = 0; step <= steps; step++) for (lane = 0; lane < 4; lane++) lane_task(step, lane)
    for (lane = 0; lane < 4; lane++) print "print x" steps "_" lane
}'
