#!/bin/sh
# Writes the graph text of a sort of BLOCKS blocks of PIECES * 64 words by a bitonic network (after Batcher, 1968):
# examples/sort.sh [BLOCKS [PIECES]], 8 blocks of 8 pieces unless others are given, both powers of 2, PIECES up to 16.
# A piece is one datum of 64 words. A task makes each piece and sorts it, a task `merge` makes a sorted block of its
# pieces, and the tasks `split` are the comparators of the network: each reads two sorted blocks, and writes the lesser
# half of their words to the first and the greater half to the second, both sorted. Inside a task the same network goes
# over pieces, and over words. The blocks are printed in order, piece by piece.
# Word i is (7919 i i + 104729 i) mod 1000003.
exec awk -v blocks="${1:-8}" -v pieces="${2:-8}" '
# COST: thousands of operations
function cost(operations) { return operations < 1000 ? 1 : int(operations / 1000) }

# whether it is a power of 2
function is_power(k) {
    if (k !~ /^[0-9]+$/) return 0
    while (k > 1) k /= 2
    return k == 1
}

# a piece of a block after so many levels of the network
function piece(level, block, d) { return "x" level "_" block "_" d }

# the pieces of a block
function block_names(level, block,    d, names) {
    for (d = 0; d < pieces; d++) names = names " " piece(level, block, d)
    return names
}

# comparators of the words of two pieces, of word i of one and the word at `place` of the other; the lesser words go to
# the piece `low`, the greater ones to `high`
function compare(one, other, low, high, place) {
    print "for i 64\nset s = " one "[i]\nset t = " other "[" place "]"
    print "put " low "[i] = (s min t)\nput " high "[" place "] = (s max t)\ndone"
}

# comparators of words in a piece, at distance h
function compare_words(x) {
    print "for q 32\nset i = (q + (q & (0 - h)))\nset s = " x "[i]\nset t = " x "[(i + h)]"
    print "put " x "[i] = (s min t)\nput " x "[(i + h)] = (s max t)\ndone"
}

# sorts `count` pieces of the list, from `start` on, of which each half is sorted; they are read from the list `source`
function merge_pieces(source, list, start, count,    d, e, h) {
    for (d = 0; d < count / 2; d++) {
        e = count - 1 - d
        compare(source[start + d], source[start + e], list[start + d], list[start + e], "(63 - i)")
    }
    for (h = count / 4; h >= 1; h /= 2)
        for (d = start; d < start + count; d++)
            if ((d - start) % (2 * h) < h) compare(list[d], list[d + h], list[d], list[d + h], "i")
    for (d = 0; d < count; d++) {
        print "for level 6\nset h = (32 >> level)"
        compare_words(list[start + d])
        print "done"
    }
}

# the task that makes a piece, and sorts it by a bitonic network of words; at distance 0 a word is compared with itself
function make(block, d,    x) {
    x = piece(0, block, d)
    print "task make" block "_" d " " cost(36000) "\nwrites " x
    print "for k 64\nset i = (" (block * pieces + d) * 64 " + k)"
    print "put " x "[k] = ((((7919 * i) * i) + (104729 * i)) % 1000003)\ndone"
    print "for size 6\nset h = (1 << size)\nfor q 32\nset i = (q + (q & (0 - h)))\nset j = (i ^ ((h << 1) - 1))"
    print "set s = " x "[i]\nset t = " x "[j]\nput " x "[i] = (s min t)\nput " x "[j] = (s max t)\ndone"
    print "for level 5\nset h = (h >> 1)"
    compare_words(x)
    print "done\ndone\nend"
}

function merge(block,    d, count, levels) {
    levels = 0
    for (d = 0; d < pieces; d++) { from[d] = piece(0, block, d); to[d] = piece(1, block, d) }
    for (count = 2; count <= pieces; count *= 2) levels++
    print "task merge" block " " cost(pieces * levels * 5700 + pieces * levels * (levels + 1) * 270)
    print "reads" block_names(0, block) "\nwrites" block_names(1, block)
    for (count = 2; count <= pieces; count *= 2)
        for (d = 0; d < pieces; d += count) {
            if (count == 2) merge_pieces(from, to, d, count)
            else merge_pieces(to, to, d, count)
        }
    print "end"
}

# the comparator of two blocks
function split_blocks(level, a, b,    d, levels) {
    levels = 1
    for (d = 1; d < pieces; d *= 2) levels++
    for (d = 0; d < pieces; d++) {
        from[d] = piece(level, a, d); from[pieces + d] = piece(level, b, d)
        to[d] = piece(level + 1, a, d); to[pieces + d] = piece(level + 1, b, d)
    }
    print "task split" level "_" a "_" b " " cost(2 * pieces * 5700 + pieces * levels * 1090)
    print "reads" block_names(level, a) block_names(level, b)
    print "writes" block_names(level + 1, a) block_names(level + 1, b)
    merge_pieces(from, to, 0, 2 * pieces)
    print "end"
}

BEGIN {
    if (!is_power(blocks) || !is_power(pieces) || pieces > 16) {
        print "usage: sort.sh [BLOCKS [PIECES]], powers of 2, PIECES up to 16" > "/dev/stderr"
        exit 2
    }
    start = pieces > 1
    levels = 0
    for (count = 2; count <= blocks; count *= 2) for (h = count; h > 1; h /= 2) levels++
    for (level = 0; level <= start + levels; level++)
        for (b = 0; b < blocks; b++) for (d = 0; d < pieces; d++) print "data " piece(level, b, d) " 64 2"
    for (b = 0; b < blocks; b++) for (d = 0; d < pieces; d++) make(b, d)
    if (start) for (b = 0; b < blocks; b++) merge(b)
    level = start
    for (count = 2; count <= blocks; count *= 2) {
        for (b = 0; b < blocks; b++) if (b % count < count / 2) split_blocks(level, b, b - b % count * 2 + count - 1)
        level++
        for (h = count / 4; h >= 1; h /= 2) {
            for (b = 0; b < blocks; b++) if (b % (2 * h) < h) split_blocks(level, b, b + h)
            level++
        }
    }
    for (b = 0; b < blocks; b++) for (d = 0; d < pieces; d++) print "print " piece(level, b, d)
}'
