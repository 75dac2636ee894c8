#!/bin/sh
# Writes the graph text of a product of two matrices of N by N words, C = A B: examples/matrix.sh [N]
# The three matrices are cut into blocks of 8 by 8 words, each one datum of 64 words, row by row. One task makes each
# block of A and of B by a formula, and one task computes each block of C: it reads a row of blocks of A and a column
# of blocks of B. The blocks of C are printed. N is a multiple of 8, up to 136; 80 unless another is given.
# A[i][j] = (31 i i + 17 j + 7 i j + 5) mod 1009, B[i][j] = (13 i + 29 j j + 3 i j + 2) mod 1009
exec awk -v n="${1:-80}" '
# whether it is a whole number of the range
function is_number(value, least, greatest) { return value ~ /^[0-9]+$/ && value + 0 >= least && value + 0 <= greatest }

# COST: thousands of operations
function cost(operations) { return operations < 1000 ? 1 : int(operations / 1000) }

# the task that makes block (r, c) of a matrix by its formula of i and j
function make_block(name, formula, r, c) {
    print "task make_" name " " cost(64 * 34) "\nwrites " name
    print "for p 8\nfor q 8\nset i = (" r * 8 " + p)\nset j = (" c * 8 " + q)"
    print "put " name "[((p * 8) + q)] = (" formula " % 1009)"
    print "done\ndone\nend"
}

# adds the product of two blocks to block c
function add_product(a, b, c) {
    print "for i 8\nfor j 8\nset s = 0\nfor k 8"
    print "set s = (s + (" a "[((i * 8) + k)] * " b "[((k * 8) + j)]))"
    print "done\nput " c "[((i * 8) + j)] = (" c "[((i * 8) + j)] + s)\ndone\ndone"
}

BEGIN {
    if (!is_number(n, 8, 136) || n % 8) {
        print "usage: matrix.sh [N], N a multiple of 8, up to 136" > "/dev/stderr"
        exit 2
    }
    blocks = n / 8
    for (r = 0; r < blocks; r++) for (c = 0; c < blocks; c++) {
        at = r "_" c
        print "data a" at " 64 2\ndata b" at " 64 2\ndata c" at " 64 2"
    }
    for (r = 0; r < blocks; r++) for (c = 0; c < blocks; c++) {
        make_block("a" r "_" c, "((((31 * i) * i) + (17 * j)) + (((7 * i) * j) + 5))", r, c)
        make_block("b" r "_" c, "(((13 * i) + ((29 * j) * j)) + (((3 * i) * j) + 2))", r, c)
    }
    for (r = 0; r < blocks; r++) for (c = 0; c < blocks; c++) {
        print "task multiply" r "_" c " " cost(blocks * 9873)
        reads = "reads"
        for (k = 0; k < blocks; k++) reads = reads " a" r "_" k " b" k "_" c
        print reads "\nwrites c" r "_" c
        for (k = 0; k < blocks; k++) add_product("a" r "_" k, "b" k "_" c, "c" r "_" c)
        print "end\nprint c" r "_" c
    }
}'
