#!/bin/sh
# Writes the graph text of an integer stencil, STEPS steps on a torus of 64 columns and STRIPS * ROWS rows:
# examples/stencil.sh [STRIPS [ROWS [STEPS]]], 8 strips of 60 rows and 10 steps unless others are given.
# In each step a cell becomes (4 * itself + north + south + west + east) / 8, rounded down. The grid is cut into strips
# of rows, each row one datum of 64 words. A task makes one step of one strip: it reads the rows of its strip, and the
# two halos, the last row of the strip to the north and the first row of the one to the south. So of what it writes only
# two rows go to other strips. The rows after the last step are printed. At least 2 strips, from 2 to 62 rows each.
# At the start the cell in row i and column j is (i i i + 7 i j + 11 j j) mod 1000003.
exec awk -v strips="${1:-8}" -v rows="${2:-60}" -v steps="${3:-10}" '
# whether it is a whole number of the range
function is_number(value, least, greatest) { return value ~ /^[0-9]+$/ && value + 0 >= least && value + 0 <= greatest }

# COST: thousands of operations
function cost(operations) { return operations < 1000 ? 1 : int(operations / 1000) }

# the datum of row i after step t; rows go around
function row(t, i) { return "g" t "_" (i + rows * strips) % (rows * strips) }

# the names of the rows of a strip after step t, with a halo of so many rows
function strip_rows(t, strip, halo,    i, names) {
    for (i = -halo; i < rows + halo; i++) names = names " " row(t, strip * rows + i)
    return names
}

# sets a row by its neighbours; an index goes around by itself, since it is taken modulo the length
function step_row(t, i,    old) {
    old = row(t - 1, i)
    print "for j 64\nput " row(t, i) "[j] = (((" old "[j] * 4) + ((" row(t - 1, i - 1) "[j] + " \
        row(t - 1, i + 1) "[j]) + (" old "[(j + 63)] + " old "[(j + 1)]))) / 8)\ndone"
}

BEGIN {
    if (!is_number(strips, 2, 4000) || !is_number(rows, 2, 62) || !is_number(steps, 1, 4000)) {
        print "usage: stencil.sh [STRIPS [ROWS [STEPS]]], at least 2 strips of 2 to 62 rows, 1 step" > "/dev/stderr"
        exit 2
    }
    for (t = 0; t <= steps; t++) for (i = 0; i < rows * strips; i++) print "data " row(t, i) " 64 2"
    for (s = 0; s < strips; s++) {
        print "task start" s " " cost(rows * 64 * 16) "\nwrites" strip_rows(0, s, 0)
        for (i = s * rows; i < (s + 1) * rows; i++)
            print "for j 64\nput " row(0, i) "[j] = (((" \
                i * i * i " + (" 7 * i " * j)) + ((11 * j) * j)) % 1000003)\ndone"
        print "end"
    }
    for (t = 1; t <= steps; t++) for (s = 0; s < strips; s++) {
        print "task step" t "_" s " " cost(rows * 64 * 25)
        print "reads" strip_rows(t - 1, s, 1) "\nwrites" strip_rows(t, s, 0)
        for (i = s * rows; i < (s + 1) * rows; i++) step_row(t, i)
        print "end"
    }
    for (i = 0; i < rows * strips; i++) print "print " row(steps, i)
}'
