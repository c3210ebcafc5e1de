#!/usr/bin/env python3
"""Writes the sample table files.

identity-horizon-1: V and Gamma the identity, P and T its negative; small enough to follow a period by hand.
rl-load-horizon-5:  a three-level inverter on a 100 V bus with a load of 3.5 ohm and 2 mH, sampled every 25 us,
                    weight 6 A^2 on switching. One unit of current is 5 A.
"""
import math
import os
import struct

UNIT = 4096


def counts(x):
    return math.floor(x * UNIT + 0.5)


def table_file(n, w, gamma, upsilon, p, t, v):
    entries = [w]
    for table in (gamma, upsilon, p, t):
        for row in table:
            entries += row
    for j, row in enumerate(v):
        entries += row[: j + 1]
    return b"SDT" + struct.pack("<HB", 1, n) + b"".join(struct.pack("<i", e) for e in entries)


def scaled(m):
    return [[counts(x) for x in row] for row in m]


def product(a, b):
    return [[sum(x * y for x, y in zip(row, column)) for column in zip(*b)] for row in a]


def transposed(a):
    return [list(column) for column in zip(*a)]


def inverted(a):
    n = len(a)
    m = [list(row) + [1.0 if i == j else 0.0 for j in range(n)] for i, row in enumerate(a)]
    for i in range(n):
        pivot = max(range(i, n), key=lambda r: abs(m[r][i]))
        m[i], m[pivot] = m[pivot], m[i]
        m[i] = [x / m[i][i] for x in m[i]]
        for r in range(n):
            if r != i:
                m[r] = [x - m[r][i] * y for x, y in zip(m[r], m[i])]
    return [row[n:] for row in m]


def lower_root(a):
    """The lower triangle L with a positive diagonal for which L times its transpose is a."""
    n = len(a)
    root = [[0.0] * n for _ in range(n)]
    for i in range(n):
        for j in range(i + 1):
            rest = a[i][j] - sum(root[i][k] * root[j][k] for k in range(j))
            root[i][j] = math.sqrt(rest) if i == j else rest / root[j][j]
    return root


def rl_load(n, bus, resistance, inductance, period, weight, base):
    decay = math.exp(-resistance * period / inductance)
    gain = bus / 2 / resistance * (1 - decay) / base
    clarke = [[2 / 3, -1 / 3, -1 / 3], [0.0, 1 / math.sqrt(3), -1 / math.sqrt(3)]]
    w = weight / base**2
    gamma, upsilon = [], []
    for stage in range(n):
        for axis in range(2):
            gamma.append([decay ** (stage + 1) if axis == a else 0.0 for a in range(2)])
            upsilon.append(
                [
                    gain * decay ** (stage - k // 3) * clarke[axis][k % 3] if k // 3 <= stage else 0.0
                    for k in range(3 * n)
                ]
            )
    changes = [[(1.0 if k == j else -1.0 if k == j - 3 else 0.0) for k in range(3 * n)] for j in range(3 * n)]
    hessian = [
        [x + w * y for x, y in zip(a, b)]
        for a, b in zip(product(transposed(upsilon), upsilon), product(transposed(changes), changes))
    ]
    inverse = inverted(hessian)
    v = inverted(lower_root(inverse))
    p = [[-x for x in row] for row in inverse]
    t = [[-x for x in row] for row in product(v, inverse)]
    return table_file(n, counts(w), scaled(gamma), scaled(upsilon), scaled(p), scaled(t), scaled(v))


def identity():
    def diagonal(x):
        return [[x if i == j else 0 for j in range(3)] for i in range(3)]

    return table_file(
        1, UNIT, [[UNIT, 0], [0, UNIT]], [[UNIT, 0, 0], [0, UNIT, 0]], diagonal(-UNIT), diagonal(-UNIT), diagonal(UNIT)
    )


def main():
    here = os.path.dirname(os.path.abspath(__file__))
    for name, data in (
        ("identity-horizon-1", identity()),
        ("rl-load-horizon-5", rl_load(5, 100.0, 3.5, 2e-3, 25e-6, 6.0, 5.0)),
    ):
        with open(os.path.join(here, name, "tables.sdt"), "wb") as out:
            out.write(data)


if __name__ == "__main__":
    main()
