#!/usr/bin/env python3
"""Prints the arms of `part` in crates/root/src/estimate.rt: for each part of the digits m, and both places, the polynomial of degree 4 that meets
the root of m * 2 ^ (24 - odd) at the Chebyshev nodes, in u / 2 ^ 20 for u digits below the part's last number, times 2 ^ 12.
No proof leans on these numbers: where they miss (0.27 % of all m), `certain` says so. Counted by trying every m."""
from decimal import Decimal, getcontext
from math import cos, pi

getcontext().prec = 70
WIDTH, DEGREE, SCALE = 1 << 20, 4, 1 << 12


def solve(rows):
    n = len(rows)
    for i in range(n):
        best = max(range(i, n), key=lambda k: abs(rows[k][i]))
        rows[i], rows[best] = rows[best], rows[i]
        for k in range(n):
            if k != i:
                f = rows[k][i] / rows[i][i]
                rows[k] = [a - f * b for a, b in zip(rows[k], rows[i])]
    return [rows[i][n] / rows[i][i] for i in range(n)]


nodes = [(1 - Decimal(cos(pi * (2 * k + 1) / (2 * DEGREE + 2)))) / 2 for k in range(DEGREE + 1)]
for i in range(16):
    odd, last = i // 8, (1 << 23) + (i % 8 + 1) * WIDTH - 1
    roots = [((last - u * WIDTH) * (1 << (24 - odd))).sqrt() * SCALE for u in nodes]
    c = solve([[u**j for j in range(DEGREE + 1)] + [r] for u, r in zip(nodes, roots)])
    numbers = [c[0] + SCALE // 2] + [-x for x in c[1:]]
    print(f"        {'_' if i == 15 else i} => Curve({', '.join(str(int(x.to_integral_value())) for x in numbers)}),")
