#!/bin/sh
# Writes the graph text of the longest common subsequence of two strings: examples/subsequence.sh [BLOCKS [SIDE]]
# Each string has BLOCKS * SIDE letters, 16 * 64 unless others are given, SIDE from 1 to 64. The table of the textbook,
# L[i][j] = (a[i] == b[j] ? L[i-1][j-1] + 1 : max(L[i-1][j], L[i][j-1])), is cut into blocks of SIDE by SIDE cells, and
# one task computes each block. Of a block only the last row and the last column are kept, one datum each: the block
# below reads the row, the one to the right reads the column, and the one below and to the right the row for its last
# word. So the blocks of an antidiagonal can run at once, as a wavefront. The last row of the table is printed, block by
# block; its last word is the length of the longest common subsequence.
# Letters are numbers below 4: a[i] = ((i i + 3 i) mod 23) mod 4, b[i] = ((i i i + i) mod 19) mod 4.
exec awk -v blocks="${1:-16}" -v side="${2:-64}" '
# whether it is a whole number of the range
function is_number(value, least, greatest) { return value ~ /^[0-9]+$/ && value + 0 >= least && value + 0 <= greatest }

# COST: thousands of operations
function cost(operations) { return operations < 1000 ? 1 : int(operations / 1000) }

# the task that makes piece k of a string by its formula of i
function make_piece(name, formula, k) {
    print "task make_" name k " " cost(side * 25) "\nwrites " name k
    print "for k " side "\nset i = (" k * side " + k)\nput " name k "[k] = (" formula " % 4)\ndone\nend"
}

# the last row and the last column of a block; zeros outside of the table
function last_row(r, c) { return r < 0 || c < 0 ? "edge" : "row" r "_" c }
function last_column(r, c) { return r < 0 || c < 0 ? "edge" : "column" r "_" c }

# The last row of the block starts as the row above it, and becomes row after row of the block: `left` is the cell to
# the left of the one that is set, and `corner` the one above that.
function block(r, c,    up, left, corner, own, reads) {
    up = last_row(r - 1, c); left = last_column(r, c - 1); corner = last_row(r - 1, c - 1); own = last_row(r, c)
    reads = "reads a" r " b" c " " up
    if (left != up) reads = reads " " left
    if (corner != up && corner != left) reads = reads " " corner
    print "task block" r "_" c " " cost(side * side * 21)
    print reads "\nwrites " own " " last_column(r, c)
    print "for j " side "\nput " own "[j] = " up "[j]\ndone"
    print "set corner = " corner "[" side - 1 "]"
    print "for i " side "\nset left = " left "[i]\nset next = left\nset letter = a" r "[i]\nfor j " side
    print "set above = " own "[j]"
    print "set left = ((letter == b" c "[j]) ? (corner + 1) : (above max left))"
    print "put " own "[j] = left\nset corner = above"
    print "done\nput " last_column(r, c) "[i] = left\nset corner = next\ndone\nend"
}

BEGIN {
    if (!is_number(blocks, 1, 63) || !is_number(side, 1, 64)) {
        print "usage: subsequence.sh [BLOCKS [SIDE]], BLOCKS up to 63, SIDE up to 64" > "/dev/stderr"
        exit 2
    }
    print "data edge " side " 2"
    for (k = 0; k < blocks; k++) print "data a" k " " side " 2\ndata b" k " " side " 2"
    for (r = 0; r < blocks; r++) for (c = 0; c < blocks; c++)
        print "data row" r "_" c " " side " 2\ndata column" r "_" c " " side " 2"
    print "task edge 1\nwrites edge\nend"
    for (k = 0; k < blocks; k++) {
        make_piece("a", "(((i * i) + (3 * i)) % 23)", k)
        make_piece("b", "((((i * i) * i) + i) % 19)", k)
    }
    for (r = 0; r < blocks; r++) for (c = 0; c < blocks; c++) block(r, c)
    for (c = 0; c < blocks; c++) print "print " last_row(blocks - 1, c)
}'
