#!/bin/sh
# Writes the graph text of N linear equations, solved modulo the prime 998244353 by elimination (Gauss and Jordan):
# examples/solve.sh [N [PANEL]], 60 equations in panels of 12 columns unless others are given, N from 1 to 64 and
# PANEL from 1 to 12.
# Each column is one datum of N words, and the columns of the unknowns are cut into panels of PANEL columns; the right
# sides are a panel of their own. A task `factor` does the steps of one panel within it: in each column it looks for the
# first row from the diagonal on that isn't 0, swaps it up, takes its inverse a^(p - 2) by powers, and leaves for each
# row by how much of the pivot's row it changes. A task `update` does the steps of one panel to a later one. It prints
# the determinant, which is 0 if there isn't exactly one solution, and the solution.
# The equations are M[i][0] x[0] + .. + M[i][N-1] x[N-1] = M[i][N] with M[i][j] = ((131 i + 17 j)^3) mod 1009; so the
# first pivot is 0, and rows are swapped.
exec awk -v n="${1:-60}" -v width="${2:-12}" '
# whether it is a whole number of the range
function is_number(value, least, greatest) { return value ~ /^[0-9]+$/ && value + 0 >= least && value + 0 <= greatest }

# COST: thousands of operations
function cost(operations) { return operations < 1000 ? 1 : int(operations / 1000) }

# the first column of a panel, and the one after its last; the right sides are the panel after those of the unknowns
function first(panel) { return panel == panels ? n : panel * width }
function last(panel) { return panel == panels ? n + 1 : panel == panels - 1 ? n : (panel + 1) * width }
function size(panel) { return last(panel) - first(panel) }

# the columns of a panel, after the steps of so many panels
function columns(steps, panel,    j, names) {
    for (j = first(panel); j < last(panel); j++) names = names " m" steps "_" j
    return names
}

# what the pivots of a panel do to the rows
function factors(panel,    k, names) {
    for (k = first(panel); k < last(panel); k++) names = names " f" k
    return names
}

# does the step of pivot k of a panel to the column `name`
function step(name, panel, k) {
    print "set row = pivots" panel "[" k - first(panel) "]\nset t = " name "[row]"
    print "put " name "[row] = " name "[" k "]\nput " name "[" k "] = t"
    print "for i " n "\nput " name "[i] = ((" name "[i] + (f" k "[i] * t)) % " P ")\ndone"
}

function make(panel,    j) {
    print "task make" panel " " cost(n * size(panel) * 18) "\nwrites" columns(0, panel)
    for (j = first(panel); j < last(panel); j++)
        print "for i " n "\nset s = ((131 * i) + " 17 * j ")\nput m0_" j "[i] = (((s * s) * s) % 1009)\ndone"
    print "end"
}

# finds pivot k in column f, and makes of f what the pivot does to each row
function pivot(panel, k,    f) {
    f = "f" k
    print "set row = " k "\nfor i " n - k "\nset j = (" n - 1 " - i)\nset row = (" f "[j] ? j : row)\ndone"
    print "put pivots" panel "[" k - first(panel) "] = row\nset a = " f "[row]"
    print "put " f "[row] = " f "[" k "]\nput " f "[" k "] = a"
    print "set det = ((((row == " k ") ? det : (" P " - det)) * a) % " P ")"
    print "set inverse = 1\nset rest = " P - 2 "\nfor bit 30"
    print "set inverse = ((rest & 1) ? ((inverse * a) % " P ") : inverse)"
    print "set a = ((a * a) % " P ")\nset rest = (rest >> 1)\ndone"
    print "for i " n "\nput " f "[i] = (" P " - ((" f "[i] * inverse) % " P "))\ndone"
    print "put " f "[" k "] = ((inverse + " P - 1 ") % " P ")"
}

function factor(panel,    j, k) {
    print "task factor" panel " " cost(n * size(panel) * (size(panel) * 6 + 19) + size(panel) * 700)
    print "reads" columns(panel, panel) (panel ? " det" panel - 1 : "")
    print "writes" factors(panel) " pivots" panel " det" panel
    print "set det = " (panel ? "det" panel - 1 "[0]" : 1)
    for (j = first(panel); j < last(panel); j++) {
        print "for i " n "\nput f" j "[i] = m" panel "_" j "[i]\ndone"
        for (k = first(panel); k < j; k++) step("f" j, panel, k)
        pivot(panel, j)
    }
    print "put det" panel "[0] = det\nend"
}

function update(panel, of,    j, k) {
    print "task update" panel "_" of " " cost(n * size(of) * (size(panel) * 12 + 8))
    print "reads" columns(panel, of) factors(panel) " pivots" panel "\nwrites" columns(panel + 1, of)
    for (j = first(of); j < last(of); j++) {
        print "for i " n "\nput m" panel + 1 "_" j "[i] = m" panel "_" j "[i]\ndone"
        for (k = first(panel); k < last(panel); k++) step("m" panel + 1 "_" j, panel, k)
    }
    print "end"
}

BEGIN {
    if (!is_number(n, 1, 64) || !is_number(width, 1, 12)) {
        print "usage: solve.sh [N [PANEL]], N from 1 to 64, PANEL from 1 to 12" > "/dev/stderr"
        exit 2
    }
    P = 998244353
    panels = int((n + width - 1) / width)
    for (a = 0; a <= panels; a++)
        for (s = 0; s <= a; s++) for (j = first(a); j < last(a); j++) print "data m" s "_" j " " n " 2"
    for (a = 0; a < panels; a++) {
        for (k = first(a); k < last(a); k++) print "data f" k " " n " 2"
        print "data pivots" a " " size(a) " 1\ndata det" a " 1 1"
    }
    for (a = 0; a <= panels; a++) make(a)
    for (a = 0; a < panels; a++) {
        factor(a)
        for (of = a + 1; of <= panels; of++) update(a, of)
    }
    print "print det" panels - 1 "\nprint m" panels "_" n
}'
