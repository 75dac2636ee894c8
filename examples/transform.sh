#!/bin/sh
# Writes the graph text of a number-theoretic transform modulo 998244353, of SIDE * SIDE words:
# examples/transform.sh [SIDE], SIDE one of 8, 16, 32 and 64, 64 unless another is given.
# X[k] is the sum of x[i] w^(i k) over all i, where w is 3^(998244352 / (SIDE * SIDE)), a root of that order. The words
# are seen as a square (the four-step transform): its columns are transformed, word k of column c is multiplied by
# w^(c k), and the rows are transformed, each by log2(SIDE) passes of butterflies. A task does eight columns or eight
# rows. The square is cut into blocks of 8 by 8 words, one datum each, so that a task for columns hands each task for
# rows one datum, all of which is used. Block (r, c) of the result has X[8 r + q + SIDE (8 c + p)] at 8 p + q.
# At the start x[i] = (12345 i i + 678 i + 9) mod 998244353.
exec awk -v side="${1:-64}" '
# COST: thousands of operations
function cost(operations) { return operations < 1000 ? 1 : int(operations / 1000) }

# sets `name` to `base` to the power of `exponent`, which has so many bits at most
function power(name, base, exponent, bits) {
    print "set factor = " base "\nset " name " = 1\nset rest = " exponent "\nfor bit " bits
    print "set " name " = ((rest & 1) ? ((" name " * factor) % " P ") : " name ")"
    print "set factor = ((factor * factor) % " P ")\nset rest = (rest >> 1)\ndone"
}

# transforms the words of a datum, which are at their places with the bits reversed
function butterflies(line) {
    print "for pass " log_side "\nset h = (1 << pass)\nfor b " side / 2
    print "set i = (b + (b & (0 - h)))"
    print "set u = " line "[i]"
    print "set v = ((" line "[(i + h)] * roots[((b & (h - 1)) << (" log_side - 1 " - pass))]) % " P ")"
    print "put " line "[i] = ((u + v) % " P ")\nput " line "[(i + h)] = (((u + " P ") - v) % " P ")"
    print "done\ndone"
}

# the roots of order SIDE, the places with their bits reversed, and the root of order SIDE * SIDE
function tables() {
    print "task tables " cost(side * 50) "\nwrites roots places root"
    power("w", 3, (P - 1) / (side * side), 30)
    print "put root[0] = w"
    power("w", "w", side, 7)
    print "set s = 1\nfor i " side / 2 "\nput roots[i] = s\nset s = ((s * w) % " P ")\ndone"
    print "for i " side "\nset s = 0\nset rest = i\nfor bit " log_side
    print "set s = ((s << 1) | (rest & 1))\nset rest = (rest >> 1)\ndone\nput places[i] = s\ndone\nend"
}

# the task that makes block (r, c) of the square
function make_block(r, c) {
    print "task make" r "_" c " " cost(64 * 30) "\nwrites x" r "_" c "\nfor p 8\nfor q 8"
    print "set i = (((" r * 8 " + p) * " side ") + (" c * 8 " + q))"
    print "put x" r "_" c "[((p * 8) + q)] = (((((12345 * i) * i) + (678 * i)) + 9) % " P ")\ndone\ndone\nend"
}

# reads blocks 0, 1, .. named by a prefix and a suffix, and writes others so
function blocks(prefix, suffix,    k, names) {
    for (k = 0; k < groups; k++) names = names " " prefix k suffix
    return names
}

# the task for the columns from 8 c on
function columns(c,    k, line) {
    line = "column" c
    print "task columns" c " " cost(8 * line_work)
    print "reads roots places root" blocks("x", "_" c) "\nwrites " line blocks("t" c "_", "") "\nfor q 8"
    for (k = 0; k < groups; k++)
        print "for p 8\nput " line "[places[(" 8 * k " + p)]] = x" k "_" c "[((p * 8) + q)]\ndone"
    butterflies(line)
    power("base", "root[0]", "(" 8 * c " + q)", 6)
    print "set w = 1"
    for (k = 0; k < groups; k++) {
        print "for p 8\nput t" c "_" k "[((p * 8) + q)] = ((" line "[(" 8 * k " + p)] * w) % " P ")"
        print "set w = ((w * base) % " P ")\ndone"
    }
    print "done\nend"
}

# the task for the rows from 8 r on
function rows(r,    k, line) {
    line = "row" r
    print "task rows" r " " cost(8 * line_work)
    print "reads roots places" blocks("t", "_" r) "\nwrites " line blocks("y" r "_", "") "\nfor q 8"
    for (k = 0; k < groups; k++)
        print "for p 8\nput " line "[places[(" 8 * k " + p)]] = t" k "_" r "[((q * 8) + p)]\ndone"
    butterflies(line)
    for (k = 0; k < groups; k++)
        print "for p 8\nput y" r "_" k "[((p * 8) + q)] = " line "[(" 8 * k " + p)]\ndone"
    print "done\nend"
}

BEGIN {
    P = 998244353
    log_side = side == 8 ? 3 : side == 16 ? 4 : side == 32 ? 5 : side == 64 ? 6 : 0
    if (!log_side) {
        print "usage: transform.sh [SIDE], SIDE one of 8, 16, 32, 64" > "/dev/stderr"
        exit 2
    }
    groups = side / 8
    line_work = log_side * (side / 2) * 46 + side * 40
    print "data roots " side / 2 " 2\ndata places " side " 2\ndata root 1 1"
    for (r = 0; r < groups; r++) for (c = 0; c < groups; c++)
        print "data x" r "_" c " 64 2\ndata t" r "_" c " 64 2\ndata y" r "_" c " 64 2"
    for (k = 0; k < groups; k++) print "data column" k " " side " 0\ndata row" k " " side " 0"
    tables()
    for (r = 0; r < groups; r++) for (c = 0; c < groups; c++) make_block(r, c)
    for (k = 0; k < groups; k++) columns(k)
    for (k = 0; k < groups; k++) rows(k)
    for (r = 0; r < groups; r++) for (c = 0; c < groups; c++) print "print y" r "_" c
}'
