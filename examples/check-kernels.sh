#!/bin/sh
# Runs each kernel at two sizes by `seq`, and by `run` on 1, 2, 4 and 8 processors what `compile` makes and `check`
# accepts, and compares each output with what awk computes by the textbook loop, without blocks and without pyrros:
# examples/check-kernels.sh [PROGRAM]
# It ends with a line of counts, and with status 0 if all outputs agree, else with 1.
set -u
here=$(dirname "$0")
program=${1:-${PYRROS:-$here/../crates/pyrros/out/pyrros}}
work=$(mktemp -d) || exit 1
trap 'rm -rf "$work"' EXIT
"$program" make 1 > "$work/graph" || { echo "no program at $program: examples/check-kernels.sh [PROGRAM]" >&2; exit 1; }
kernels=0
agreed=0
failed=0

# awk with functions that all references use. Its numbers are doubles, exact up to 2^53: every product below either
# stays below that, or is one of `times`.
reference() {
    awk "$@" -v P=998244353 '
# a * b modulo P, in two steps with at most 45 bits
function times(a, b,    high) {
    high = int(b / 32768)
    return (a * high % P * 32768 + a * (b - high * 32768)) % P
}
function power(a, e,    r) {
    for (r = 1; e > 0; e = int(e / 2)) { if (e % 2) r = times(r, a); a = times(a, a) }
    return r
}
function number(w) { return sprintf("%.0f", w) }

# three loops over rows, columns and their products
function matrix(n,    i, j, k, s, a, b, c, r, q, line) {
    for (i = 0; i < n; i++) for (j = 0; j < n; j++) {
        a[i, j] = (31 * i * i + 17 * j + 7 * i * j + 5) % 1009
        b[i, j] = (13 * i + 29 * j * j + 3 * i * j + 2) % 1009
    }
    for (i = 0; i < n; i++) for (j = 0; j < n; j++) {
        s = 0
        for (k = 0; k < n; k++) s += a[i, k] * b[k, j]
        c[i, j] = s
    }
    for (r = 0; r < n / 8; r++) for (q = 0; q < n / 8; q++) {
        line = "c" r "_" q " ="
        for (i = 0; i < 8; i++) for (j = 0; j < 8; j++) line = line " " number(c[8 * r + i, 8 * q + j])
        print line
    }
}

# the sum that defines the transform, by the rule of Horner for each word
function transform(side,    n, i, k, w, root, x, y, s, r, c, p, q, line) {
    n = side * side
    for (i = 0; i < n; i++) x[i] = (12345 * i * i + 678 * i + 9) % P
    root = power(3, (P - 1) / n)
    for (k = 0; k < n; k++) {
        w = power(root, k)
        s = 0
        for (i = n - 1; i >= 0; i--) s = (times(s, w) + x[i]) % P
        y[k] = s
    }
    for (r = 0; r < side / 8; r++) for (c = 0; c < side / 8; c++) {
        line = "y" r "_" c " ="
        for (p = 0; p < 8; p++) for (q = 0; q < 8; q++) line = line " " number(y[8 * r + q + side * (8 * c + p)])
        print line
    }
}

# elimination row by row, below the diagonal, and then the unknowns from the last on
function solve(n, width,    i, j, k, row, t, m, det, x, panels, line) {
    for (i = 0; i < n; i++) for (j = 0; j <= n; j++) {
        t = (131 * i + 17 * j) % 1009
        m[i, j] = t * t * t % 1009
    }
    det = 1
    for (k = 0; k < n; k++) {
        for (row = k; row < n && m[row, k] == 0; row++) ;
        if (row != k) {
            for (j = k; j <= n; j++) { t = m[k, j]; m[k, j] = m[row, j]; m[row, j] = t }
            det = P - det
        }
        det = times(det, m[k, k])
        for (i = k + 1; i < n; i++) {
            t = P - times(m[i, k], power(m[k, k], P - 2))
            for (j = k; j <= n; j++) m[i, j] = (m[i, j] + times(t, m[k, j])) % P
        }
    }
    for (i = n - 1; i >= 0; i--) {
        t = m[i, n]
        for (j = i + 1; j < n; j++) t = (t + P - times(m[i, j], x[j])) % P
        x[i] = times(t, power(m[i, i], P - 2))
    }
    panels = int((n + width - 1) / width)
    print "det" panels - 1 " = " number(det)
    line = "m" panels "_" n " ="
    for (i = 0; i < n; i++) line = line " " number(x[i])
    print line
}

# step after step over the whole grid
function stencil(strips, rows, steps,    n, i, j, t, g, h, line) {
    n = strips * rows
    for (i = 0; i < n; i++) for (j = 0; j < 64; j++) g[i, j] = (i * i * i + 7 * i * j + 11 * j * j) % 1000003
    for (t = 1; t <= steps; t++) {
        for (i = 0; i < n; i++) for (j = 0; j < 64; j++)
            h[i, j] = int((4 * g[i, j] + g[(i + n - 1) % n, j] + g[(i + 1) % n, j] + \
                g[i, (j + 63) % 64] + g[i, (j + 1) % 64]) / 8)
        for (i = 0; i < n; i++) for (j = 0; j < 64; j++) g[i, j] = h[i, j]
    }
    for (i = 0; i < n; i++) {
        line = "g" steps "_" i " ="
        for (j = 0; j < 64; j++) line = line " " number(g[i, j])
        print line
    }
}

# the whole table
function subsequence(blocks, side,    n, i, j, a, b, l, line) {
    n = blocks * side
    for (i = 1; i <= n; i++) {
        j = i - 1
        a[i] = (j * j + 3 * j) % 23 % 4
        b[i] = (j * j * j + j) % 19 % 4
        l[0, i] = 0
        l[i, 0] = 0
    }
    l[0, 0] = 0
    for (i = 1; i <= n; i++) for (j = 1; j <= n; j++)
        l[i, j] = a[i] == b[j] ? l[i - 1, j - 1] + 1 : l[i - 1, j] > l[i, j - 1] ? l[i - 1, j] : l[i, j - 1]
    for (i = 0; i < blocks; i++) {
        line = "row" blocks - 1 "_" i " ="
        for (j = 1; j <= side; j++) line = line " " number(l[n, i * side + j])
        print line
    }
}

# insertion of one word after the other
function sorted(blocks, pieces,    n, i, j, v, x, level, count, line) {
    n = blocks * pieces * 64
    for (i = 0; i < n; i++) {
        v = (7919 * i * i + 104729 * i) % 1000003
        for (j = i; j > 0 && x[j - 1] > v; j--) x[j] = x[j - 1]
        x[j] = v
    }
    level = pieces > 1
    for (count = 2; count <= blocks; count *= 2) for (j = count; j > 1; j /= 2) level++
    for (i = 0; i < blocks * pieces; i++) {
        line = "x" level "_" int(i / pieces) "_" i % pieces " ="
        for (j = 0; j < 64; j++) line = line " " number(x[i * 64 + j])
        print line
    }
}

BEGIN {
    if (kernel == "matrix") matrix(a)
    if (kernel == "transform") transform(a)
    if (kernel == "solve") solve(a, b)
    if (kernel == "stencil") stencil(a, b, c)
    if (kernel == "subsequence") subsequence(a, b)
    if (kernel == "sort") sorted(a, b)
}'
}

# compares an output with the reference: agrees FILE WHAT
agrees() {
    if [ -s "$1" ] && cmp -s "$work/reference" "$1"; then
        agreed=$((agreed + 1))
    else
        failed=$((failed + 1))
        echo "differs: $2"
    fi
}

# one kernel at one size: try KERNEL SIZE ..
try() {
    echo "$*"
    kernels=$((kernels + 1))
    reference -v kernel="$1" -v a="$2" -v b="${3:-}" -v c="${4:-}" > "$work/reference"
    name=$1
    shift
    "$here/$name.sh" "$@" > "$work/graph"
    "$program" seq < "$work/graph" > "$work/output"
    agrees "$work/output" "$name $* by seq"
    for processors in 1 2 4 8; do
        : > "$work/output"
        if "$program" compile "$processors" < "$work/graph" > "$work/bundle" &&
            "$program" check < "$work/bundle" > "$work/report" && [ "$(sed -n 1p "$work/report")" = accepted ]; then
            "$program" run < "$work/bundle" > "$work/output"
        fi
        agrees "$work/output" "$name $* by run on $processors processors"
    done
}

try matrix 16
try matrix 40
try transform 8
try transform 32
try solve 5 2
try solve 32 8
try stencil 2 3 4
try stencil 8 12 10
try subsequence 2 3
try subsequence 8 64
try sort 2 1
try sort 8 4
echo "$kernels kernels and sizes, $agreed outputs agree, $failed differ"
[ "$failed" -eq 0 ]
