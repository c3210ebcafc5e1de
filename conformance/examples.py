#!/usr/bin/env python3
"""Recomputes every worked example and every number in the documents with board.py.

Prints one line for each that does not come out, and a last line with how many
were tried. Status 1 if any did not come out.
"""

import itertools
import math
import struct
import sys
from fractions import Fraction

sys.dont_write_bytecode = True
import board                                                                        # noqa: E402
from board import BarredLeg, NpcLeg, Problem, Refusal, Squared, Tables              # noqa: E402

tried = 0
wrong = 0


def expect(page, what, got, wanted):
    global tried, wrong
    tried += 1
    if got != wanted:
        wrong += 1
        print(f"{page}: {what}: the page says {wanted!r}, computed {got!r}")


def refusal_of(call):
    try:
        call()
    except Refusal as refusal:
        return refusal.text()
    return None


# Legs and a measure that the board does not need, but the examples do.

class SteppedLeg:
    def __init__(self, reach, stride):
        self.reach, self.stride = reach, stride
        self.positions = 2 * reach + 1
        self.rest = reach

    def has(self, p):
        return 0 <= p < self.positions

    def level(self, p):
        return p - self.reach if self.has(p) else 0

    def permits(self, p, q):
        return self.has(p) and self.has(q) and abs(p - q) <= self.stride


class ListedLeg:
    def __init__(self, levels, masks, rest):
        self.levels, self.masks, self.rest = levels, masks, rest
        self.positions = len(levels)

    def has(self, p):
        return 0 <= p < self.positions

    def level(self, p):
        return self.levels[p] if self.has(p) else 0

    def permits(self, p, q):
        return self.has(p) and self.has(q) and bool(self.masks[p] >> q & 1)


class PeakFirst:
    start = (0, 0)

    def after(self, cost, difference):
        return (max(cost[0], abs(difference)), cost[1] + abs(difference))


def listed_refusal(levels, masks, rest):
    if not 2 <= len(levels) <= 5 or len(masks) != len(levels):
        return (11, 0)
    for p, level in enumerate(levels):
        if not -2 <= level <= 2 or p > 0 and level <= levels[p - 1]:
            return (12, p)
    for p, mask in enumerate(masks):
        if not mask >> p & 1 or mask >> len(levels):
            return (13, p)
    if not 0 <= rest < len(levels):
        return (14, 0)
    return None


# The identity tables of table-file.md and period.md.

def diagonal(rows, columns, value):
    return [[value if r == c else 0 for c in range(columns)] for r in range(rows)]


def identity_tables(gamma_11=4096):
    gamma = diagonal(2, 2, 4096)
    gamma[0][0] = gamma_11
    return Tables(1, 4096, gamma, diagonal(2, 3, 4096), diagonal(3, 3, -4096), diagonal(3, 3, -4096),
                  [[4096], [0, 4096], [0, 0, 4096]])


def table_file():
    page = "table-file.md"
    for horizon, entries, length in ((1, 35, 146), (2, 126, 510), (3, 274, 1102), (4, 479, 1922), (5, 741, 2970)):
        counted = sum(sum(rows) for _, rows, _, _ in board.layout(horizon))
        expect(page, f"entries for N = {horizon}", counted, entries)
        expect(page, f"formula for N = {horizon}",
               1 + 4 * horizon + 24 * horizon ** 2 + 3 * horizon * (3 * horizon + 1) // 2, entries)
        expect(page, f"bytes for N = {horizon}", board.file_length(horizon), length)
        # Number the entries by walking the tables, and hold the formulas against that.
        numbers = {}
        for name, rows, _, _ in board.layout(horizon):
            for r, row_length in enumerate(rows, 1):
                for c in range(1, row_length + 1):
                    numbers[name, r, c] = len(numbers)
        n = 3 * horizon
        formulas = {
            "w": lambda r, c: 0,
            "Gamma": lambda r, c: 1 + 2 * (r - 1) + (c - 1),
            "Upsilon": lambda r, c: 1 + 4 * horizon + n * (r - 1) + (c - 1),
            "P": lambda r, c: 1 + 4 * horizon + 6 * horizon ** 2 + n * (r - 1) + (c - 1),
            "T": lambda r, c: 1 + 4 * horizon + 15 * horizon ** 2 + n * (r - 1) + (c - 1),
            "V": lambda r, c: 1 + 4 * horizon + 24 * horizon ** 2 + r * (r - 1) // 2 + (c - 1),
        }
        expect(page, f"entry numbers for N = {horizon}",
               all(formulas[name](r, c) == k for (name, r, c), k in numbers.items()), True)
        counts = {name: sum(rows) for name, rows, _, _ in board.layout(horizon)}
        expect(page, f"table of entries for N = {horizon}", counts,
               {"w": 1, "Gamma": 4 * horizon, "Upsilon": 6 * horizon ** 2, "P": 9 * horizon ** 2,
                "T": 9 * horizon ** 2, "V": n * (n + 1) // 2})
    data = bytearray(board.write_tables(identity_tables()))
    expect(page, "length of the example", len(data), 146)
    expect(page, "front of the example", bytes(data[:18]),
           bytes.fromhex("53 44 54 01 00 01 00 10 00 00 00 10 00 00 00 00 00 00"))
    expect(page, "P's first entry", bytes(data[50:54]), bytes.fromhex("00 f0 ff ff"))
    expect(page, "offset of P's first entry", 6 + 4 * (1 + 4 + 6), 50)
    expect(page, "V's third diagonal entry", struct.unpack("<i", data[142:146])[0], 4096)
    expect(page, "read and written again", board.write_tables(board.read_tables(bytes(data))), bytes(data))
    changed = data[:142] + bytes(4)
    expect(page, "V's last entry 0", refusal_of(lambda: board.read_tables(changed)), "no file 7 142")
    changed_w = data[:6] + struct.pack("<i", 65537) + data[10:]
    expect(page, "w of 65,537", refusal_of(lambda: board.read_tables(changed_w)), "no file 6 6")
    expect(page, "five bytes, wrong letters", refusal_of(lambda: board.read_tables(b"XXXXX")), "no file 1 5")
    both = bytearray(data)
    both[142:146] = struct.pack("<i", -2000000)
    expect(page, "-2,000,000 on the diagonal", refusal_of(lambda: board.read_tables(bytes(both))), "no file 6 142")
    both[50:54] = struct.pack("<i", 2000000)
    expect(page, "two entries out of bounds", refusal_of(lambda: board.read_tables(bytes(both))), "no file 6 50")


def legs():
    page = "legs-and-measures.md"
    masks = {
        (1, 1): "011 111 110", (1, 2): "111 111 111", (1, 3): "111 111 111", (1, 4): "111 111 111",
        (2, 1): "00011 00111 01110 11100 11000", (2, 2): "00111 01111 11111 11110 11100",
        (2, 3): "01111 11111 11111 11111 11110", (2, 4): "11111 11111 11111 11111 11111",
    }
    for (reach, stride), said in masks.items():
        leg = SteppedLeg(reach, stride)
        got = " ".join("".join("1" if leg.permits(p, q) else "0" for q in reversed(range(leg.positions)))
                       for p in range(leg.positions))
        expect(page, f"reach {reach} stride {stride}", got, said)
    npc = NpcLeg()
    same = SteppedLeg(1, 1)
    for p, q in itertools.product(range(-1, 5), repeat=2):
        expect(page, f"NPC is reach 1 and stride 1, {p} {q}", npc.permits(p, q), same.permits(p, q))
    expect(page, "NPC levels and rest", ([npc.level(p) for p in range(4)], npc.rest), ([-1, 0, 1, 0], 1))
    barred = BarredLeg(npc, True)
    expect(page, "barred moves", [(p, q) for p in range(5) for q in range(5) if barred.permits(p, q)],
           [(0, 0), (1, 1), (2, 2)])
    expect(page, "levels 1, 0, 3", listed_refusal([1, 0, 3], [7, 7, 7], 0), (12, 1))
    expect(page, "15 x 161,218,560 squared", 15 * 161218560 ** 2, 389871361327104000)
    expect(page, "below 2^59", 389871361327104000 < 2 ** 59, True)
    measure, peak = Squared(), PeakFirst()
    squared_cost, peak_cost = measure.start, peak.start
    for _ in range(15):
        squared_cost = measure.after(squared_cost, -161218560)
        peak_cost = peak.after(peak_cost, -161218560)
    expect(page, "Squared::highest", squared_cost, 389871361327104000)
    expect(page, "PeakFirst::highest", peak_cost, (161218560, 2418278400))
    expect(page, "its sum is past 32 bits", 2418278400 < 2 ** 32, True)


def decoder():
    page = "decoder.md"
    npc = [NpcLeg(), NpcLeg(), NpcLeg()]
    diagonal_v = [[4096], [0, 4096], [0, 0, 4096]]

    def row(name, levels, cost, nodes, mark, target, legs=npc, limit=130, V=diagonal_v, unconstrained=None,
            applied=None, measure=Squared()):
        applied = [leg.rest for leg in legs] if applied is None else applied
        problem = Problem(legs, measure, V, target, target if unconstrained is None else unconstrained,
                          applied, None)
        for decode in (board.search, board.decode_by_definition):
            answer = decode(problem, limit)
            got = ([problem.leg(j).level(p) for j, p in enumerate(answer.sequence)],
                   answer.cost, answer.count, answer.mark)
            expect(page, f"{name} ({decode.__name__})", got, (levels, cost, nodes, mark))

    row("a-target-that-is-met", [0, 0, 0], 0, 9, "certified", [0, 0, 0])
    row("a-limit-one-node-short", [0, 0, 0], 0, 8, "stopped", [0, 0, 0], limit=8)
    row("a-limit-that-just-suffices", [0, 0, 0], 0, 9, "certified", [0, 0, 0], limit=9)
    row("of-two-as-cheap-the-later", [1, 0, 0], 4194304, 15, "certified", [2048, 0, 0])
    row("of-two-as-cheap-the-later-and-not-the-start", [0, 0, 0], 4194304, 15, "certified", [-2048, 0, 0])
    row("a-barred-phase", [0, 0, 0], 67108864, 7, "certified", [8192, 0, 0],
        legs=[BarredLeg(NpcLeg(), True), NpcLeg(), NpcLeg()])
    row("a-target-two-steps-away", [0, 0, 0], 16777216, 8, "certified", [4096, 0, 0], applied=[0, 1, 1])
    coupled = [[1000], [2500, 100000], [0, 0, 4096]]
    row("coupled-rows-squared", [0, 0, 0], 9000000, 12, "certified", [3000, 0, 0], V=coupled, unconstrained=[0, 0, 0])
    row("coupled-rows-peak-first", [1, 0, 0], (2500, 4500), 15, "certified", [3000, 0, 0], V=coupled,
        unconstrained=[0, 0, 0], measure=PeakFirst())
    two_level = [ListedLeg([-1, 1], [3, 3], 0) for _ in range(3)]
    row("legs-without-level-zero", [1, 1, 1], 50331648, 14, "certified", [0, 0, 0], legs=two_level)
    row("a-search-of-one-node", [-1, -1, -1], 50331648, 1, "stopped", [0, 0, 0], legs=two_level, limit=1)
    expect(page, "how large a difference gets", 129761280 + 15 * 1048576 * 2, 161218560)
    expect(page, "2,097,152", 1048576 * 2, 2097152)
    expect(page, "rounding upward", (board.rounded(2048), board.rounded(-2048)), (1, 0))
    expect(page, "a horizon of one stage remembers the plan itself", board.moved_on((0, 1, 2)), (0, 1, 2))
    expect(page, "one stage on", board.moved_on((0, 1, 2, 3, 4, 5)), (3, 4, 5, 3, 4, 5))


def period():
    page = "period.md"
    for a, said in ((2047, 0), (2048, 1), (-2048, 0), (-2049, -1)):
        expect(page, f"rounded({a})", board.rounded(a), said)
    for a in range(-20000, 20000):
        quotient, remainder = divmod(a, 4096)
        if board.rounded(a) != quotient + (remainder >= 2048):
            expect(page, f"the form by remainders of {a}", quotient + (remainder >= 2048), board.rounded(a))

    def row(levels, currents, references, said, gamma_11=4096):
        tables = identity_tables(gamma_11)
        e = [board.rounded(board.dot(currents, g)) - y for g, y in zip(tables.Gamma, references)]
        theta = [board.rounded(board.dot(e, column)) for column in zip(*tables.Upsilon)]
        theta = [t - tables.w * u for t, u in zip(theta, levels)]
        lists = board.period(tables, levels, currents, references)
        expect(page, f"i {currents} y {references} levels {levels}", (e, theta) + lists, said + (said[2],))

    row([0, 0, 0], [0, 0], [2048, 0], ([-2048, 0], [-2048, 0, 0], [2048, 0, 0]))
    row([1, 0, 0], [0, 0], [2048, 0], ([-2048, 0], [-6144, 0, 0], [6144, 0, 0]))
    row([0, 0, 1], [0, 0], [2048, 0], ([-2048, 0], [-2048, 0, -4096], [2048, 0, 4096]))
    row([0, 0, 0], [2048, 0], [0, 0], ([1, 0], [1, 0, 0], [-1, 0, 0]), gamma_11=1)
    row([0, 0, 0], [-2048, 0], [0, 0], ([0, 0], [0, 0, 0], [0, 0, 0]), gamma_11=1)
    greatest = Tables(5, 65536, [[8192] * 2] * 10, [[4096] * 15] * 10, [[1048576] * 15] * 15, [[65536] * 15] * 15,
                      [[1048576] * j for j in range(1, 16)])
    unconstrained, target = board.period(greatest, [-2] * 3, [8192, 8192], [-8192] * 10)
    expect(page, "every table at its greatest", (unconstrained, target), ([1673527296] * 15, [104595456] * 15))
    gamma_part = 2 * 8192 * 8192 // 4096
    e = gamma_part + 8192
    upsilon_part = 10 * 4096 * e // 4096
    theta = upsilon_part + 65536 * 2
    expect(page, "table of bounds",
           (gamma_part, e, upsilon_part, theta, 15 * 1048576 * theta // 4096, 15 * 65536 * theta // 4096),
           (32768, 40960, 409600, 540672, 2076180480, 129761280))
    expect(page, "32 bits", 2076180480 < 2 ** 31, True)
    expect(page, "sums below 2^43", 15 * 1048576 * theta < 2 ** 43, True)


def controller():
    page = "controller.md"

    def fresh():
        return board.Controller(1, Squared(), [NpcLeg(), NpcLeg(), NpcLeg()])

    data = board.write_tables(identity_tables())
    c = fresh()
    expect(page, "first day", (c.applied, c.limit_of_nodes, c.tables, c.last_plan, c.remembered,
                               [leg.barred for leg in c.legs]), ([1, 1, 1], 130, None, None, None, [False] * 3))
    expect(page, "no plan to read", (c.entry(1), c.cost(), c.count(), c.mark()), (None,) * 4)
    expect(page, "plan without tables", refusal_of(lambda: c.plan([9000, 0], [])), "no controller 22 0")
    expect(page, "fire another's with nothing open", refusal_of(lambda: c.fire(board.Order(2))), "no controller 27 0")
    expect(page, "fire with nothing open", refusal_of(lambda: c.fire(board.Order(1))), "no controller 28 0")
    expect(page, "withdraw with nothing open", refusal_of(lambda: c.withdraw(board.Order(1))), "no controller 28 0")
    for nodes in (0, 100001):
        expect(page, f"limit {nodes}", refusal_of(lambda: c.limit(nodes)), "no controller 23 0")
    for nodes in (1, 100000, 130):
        expect(page, f"limit {nodes}", refusal_of(lambda: c.limit(nodes)), None)
    expect(page, "phase 3", refusal_of(lambda: c.bar(3)), "no controller 24 0")
    c.load(data)
    order = c.plan([0, 0], [2048, 0])
    expect(page, "entries that are none", (c.entry(0), c.entry(4)), (None, None))
    for name, call in (("load", lambda: c.load(b"")), ("limit", lambda: c.limit(0)), ("bar", lambda: c.bar(9)),
                       ("free", lambda: c.free(9)), ("plan", lambda: c.plan([9000, 0], []))):
        expect(page, f"{name} while an order is open", refusal_of(call), "no controller 21 0")
    expect(page, "another's order", refusal_of(lambda: c.withdraw(board.Order(2))), "no controller 27 0")
    c.fire(order)
    expect(page, "fired", (c.applied, c.remembered, c.cost()), ([2, 1, 1], (2, 1, 1), 4194304))
    expect(page, "26 before 25", refusal_of(lambda: c.plan([9000, 0], [0])), "no controller 26 1")
    expect(page, "the first value out of range", refusal_of(lambda: c.plan([0, 0], [8193, -8193])), "no controller 25 2")
    expect(page, "refused load", refusal_of(lambda: c.load(b"SDT")), "no file 1 3")
    expect(page, "a denied call changes nothing", (c.applied, c.remembered, c.cost()), ([2, 1, 1], (2, 1, 1), 4194304))
    c.load(data)
    expect(page, "load", (c.applied, c.remembered, c.cost()), ([2, 1, 1], None, None))


def console():
    page = "console.md"
    c = board.Console(board.write_tables(identity_tables()))
    rows = [
        ("LOAD", "ok"),
        ("STEP 0 0 2048 0", "ok 1 0 0 cost 4194304 nodes 15 certified"),
        ("STEP 0 0 2048 0", "ok 1 0 0 cost 4194304 nodes 8 certified"),
        ("BAR d", "no console 42 5"),
        ("LIMIT 0", "no controller 23 0"),
        ("LIMIT -1", "no controller 23 0"),
        ("LIMIT", "no console 44 6"),
        ("LIMIT  ", "no console 44 8"),
        ("LIMIT 12345678", "no console 43 7"),
        ("LIMIT 5 x", "no console 44 9"),
        ("BAR", "no console 44 4"),
        ("BAR A", "no console 42 5"),
        ("BAR a b", "no console 44 7"),
        ("bar a", "no console 41 1"),
        ("  LOAD x", "no console 44 8"),
        ("STEP 1", "no console 44 7"),
        ("STEP 1 + 2", "no console 43 8"),
        ("STEP 1 2", "no controller 26 0"),
        ("STEP 9000 0 0", "no controller 26 1"),
        ("STEP 9000 0 0 0", "no controller 25 0"),
        ("STEP x", "no console 43 6"),
    ]
    for line, said in rows:
        expect(page, line, c.answer(line.encode("ascii")), said)
    expect(page, "a thirteenth number", c.answer(b"STEP 1 1 1 1 1 1 1 1 1 1 1 1 x"), "no console 44 30")
    longest = f"ok -1 -1 -1 cost {389871361327104000} nodes 100000 certified\n"
    expect(page, "no answer takes more than 71 bytes", len(longest) <= 71, True)


def quantise(x):
    """quantiser.md: the one r with 2r - 1 <= 8192 x < 2r + 1, for the exact value of the double."""
    return (math.floor(Fraction(x) * 8192) + 1) // 2


def quantise_in_doubles(x):
    """quantiser.md, "How to compute it without an error"."""
    return (math.floor(x * 4096.0 * 2.0) + 1) // 2


def entry(x, table, counts=False):
    limits = {"Weight": (0, 65536), "Gamma": (-8192, 8192), "Upsilon": (-4096, 4096),
              "Unconstrained": (-1048576, 1048576), "Target": (-65536, 65536), "Generator": (-1048576, 1048576)}
    if not counts and (math.isinf(x) or math.isnan(x)):
        return "refused, 31"
    r = x if counts else quantise(x)
    least, greatest = limits[table]
    return r if least <= r <= greatest else "refused, 32"


def quantiser():
    page = "quantiser.md"
    for counts, said in ((0.5, (0, 1, 1)), (-0.5, (-1, 0, 0)), (1.5, (1, 2, 2)), (-1.5, (-2, -1, -1)),
                         (1048575.5, (1048575, 1048576, 1048576))):
        x = counts / 4096
        neighbours = (math.nextafter(x, -math.inf), x, math.nextafter(x, math.inf))
        expect(page, f"{counts} counts", tuple(quantise(v) for v in neighbours), said)
        expect(page, f"{counts} counts in doubles", tuple(quantise_in_doubles(v) for v in neighbours), said)
        for v in neighbours:
            r = quantise(v)
            expect(page, f"inequality for {v!r}", 2 * r - 1 <= Fraction(v) * 8192 < 2 * r + 1, True)
    every = ("Weight", "Gamma", "Upsilon", "Unconstrained", "Target", "Generator")
    expect(page, "Real(1.0)", entry(1.0, "Gamma"), 4096)
    expect(page, "Real(2.0)", entry(2.0, "Gamma"), 8192)
    expect(page, "Real(8192.5 / 4096)", (quantise(8192.5 / 4096), entry(8192.5 / 4096, "Gamma")), (8193, "refused, 32"))
    expect(page, "Real(-8192.5 / 4096)", entry(-8192.5 / 4096, "Gamma"), -8192)
    expect(page, "Real(-0.5 / 4096)", entry(-0.5 / 4096, "Weight"), 0)
    expect(page, "Real(-0.0)", entry(-0.0, "Weight"), 0)
    for table in every:
        expect(page, f"Real(5e-324) {table}", entry(5e-324, table), 0)
        expect(page, f"Real(-5e-324) {table}", entry(-5e-324, table), 0)
        expect(page, f"the largest double {table}", entry(1.7976931348623157e308, table), "refused, 32")
        expect(page, f"infinity {table}", entry(math.inf, table), "refused, 31")
        expect(page, f"not a number {table}", entry(math.nan, table), "refused, 31")
        expect(page, f"Counts(i64::MAX) {table}", entry(2 ** 63 - 1, table, counts=True), "refused, 32")
    expect(page, "Counts(-1)", entry(-1, "Weight", counts=True), "refused, 32")
    expect(page, "0.49999999999999994 is the double below 0.5", math.nextafter(0.5, 0), 0.49999999999999994)
    expect(page, "adding one half in doubles", math.floor(0.49999999999999994 + 0.5), 1)
    for x in (0.1, 511.9999, -511.9999, 1 / 3, 5e-324, 512.0):
        expect(page, f"both products of {x} are exact", Fraction(x * 4096.0 * 2.0), Fraction(x) * 8192)


def main():
    for part in (table_file, legs, decoder, period, controller, console, quantiser):
        part()
    print(f"{tried} tried, {wrong} wrong")
    return 1 if wrong else 0


if __name__ == "__main__":
    sys.exit(main())
