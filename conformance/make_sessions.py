#!/usr/bin/env python3
"""Makes the recordings in sessions/, and random sessions for ./run.

    make_sessions.py            writes sessions/ anew, the same bytes every time

Each folder sessions/NAME/ has tables.sdt (but for the one that shows a missing
file), input and expected. The expected answers are those of board.py.
"""

import io
import math
import os
import random
import shutil
import sys

sys.dont_write_bytecode = True
import board                        # noqa: E402
from board import Tables            # noqa: E402

HERE = os.path.dirname(os.path.abspath(__file__))
SESSIONS = os.path.join(HERE, "sessions")


# ---------------------------------------------------------------------------
# Tables

def matrix(rows, columns, value=lambda r, c: 0):
    return [[value(r, c) for c in range(columns)] for r in range(rows)]


def triangle(rows, value):
    return [[value(r, c) for c in range(r + 1)] for r in range(rows)]


def stage_tables(horizon, w=4096, unit=4096):
    """Every stage stands for itself, and phases a and b follow the two references.

    The unconstrained entries and the target are the references, and w times
    the applied levels on top in the first stage. For N = 1 and unit 4096 these
    are the tables of samples/identity-horizon-1.
    """
    n = 3 * horizon
    return Tables(
        horizon, w,
        Gamma=matrix(2 * horizon, 2, lambda r, c: 4096 if r % 2 == c else 0),
        Upsilon=matrix(2 * horizon, n, lambda r, c: 4096 if (r // 2, r % 2) == (c // 3, c % 3) else 0),
        P=matrix(n, n, lambda r, c: -4096 if r == c else 0),
        T=matrix(n, n, lambda r, c: -4096 if r == c else 0),
        V=triangle(n, lambda r, c: unit if r == c else 0))


def mixed_tables(rng, horizon):
    """Few small numbers in all tables, so that costs often agree and sums often end in one half."""
    n = 3 * horizon
    unit = rng.choice([1, 2, 4096])
    mixing = rng.choice([0.1, 0.3, 0.6])

    def some(values, share=mixing):
        return lambda r, c: rng.choice(values) if rng.random() < share else 0

    def around_diagonal(values, share):
        return lambda r, c: rng.choice([-4096, 4096, -2048]) if r == c else some(values, share)(r, c)

    return Tables(
        horizon, rng.choice([0, 0, unit, 4096]),
        Gamma=matrix(2 * horizon, 2, some([1, 2048, -2048, 4096, 1024, -3], 0.6)),
        Upsilon=matrix(2 * horizon, n, some([4096, -4096, 2048, -2048, 1], max(0.3, 2 / n))),
        P=matrix(n, n, around_diagonal([4096, 2048, -2048, 3], mixing / 2)),
        T=matrix(n, n, around_diagonal([4096, 2048, -2048, 1], mixing / 2)),
        V=triangle(n, lambda r, c: unit * rng.choice([1, 1, 1, 2]) if r == c else unit * some([1, -1, 1, -2])(r, c)))


def wild_tables(rng, horizon):
    """Any numbers within the limits, and often the limits themselves."""
    def within(least, greatest):
        return lambda r, c: rng.choice([least, greatest, rng.randint(least, greatest)])

    n = 3 * horizon
    return Tables(
        horizon, rng.choice([0, 65536, rng.randint(0, 65536)]),
        Gamma=matrix(2 * horizon, 2, within(-8192, 8192)),
        Upsilon=matrix(2 * horizon, n, within(-4096, 4096)),
        P=matrix(n, n, within(-1048576, 1048576)),
        T=matrix(n, n, within(-65536, 65536)),
        V=triangle(n, lambda r, c: within(1 if r == c else -1048576, 1048576)(r, c)))


def greatest_tables(horizon):
    """Every entry at its greatest, or one under it so that costs have odd digits too."""
    def near(greatest):
        return lambda r, c: greatest - (r + c) % 2

    n = 3 * horizon
    return Tables(horizon, 65536, matrix(2 * horizon, 2, lambda r, c: 8192), matrix(2 * horizon, n, near(4096)),
                  matrix(n, n, near(1048576)), matrix(n, n, near(65536)), triangle(n, near(1048576)))


# Tables of a load of resistance and inductance. The pages do not say how
# tables are made; their equations fit the usual quadratic cost
#
#     sum over the stages of |i - y|^2  +  weight * |change of levels|^2
#
# for currents that go i -> DECAY i + GAIN K u. With Q = Upsilon' Upsilon +
# weight S' S (S takes each stage's change of levels) one has V' V = Q with V a
# lower triangle, P = -Q^-1 and T = -(V')^-1.

DECAY, GAIN, WEIGHT = 0.92, 0.16, 0.008
CLARKE = [[2 / 3, -1 / 3, -1 / 3], [0.0, math.sqrt(3) / 3, -math.sqrt(3) / 3]]


def quantised(x):
    """quantiser.md: nearest count, the upper one in the middle."""
    return (math.floor(x * 8192.0) + 1) // 2


def times(a, b):
    return [[sum(x * y for x, y in zip(row, column)) for column in zip(*b)] for row in a]


def inverse_of_triangle(lower):
    n = len(lower)
    inverse = matrix(n, n, lambda r, c: 0.0)
    for c in range(n):
        for r in range(c, n):
            rest = (1.0 if r == c else 0.0) - sum(lower[r][k] * inverse[k][c] for k in range(c, r))
            inverse[r][c] = rest / lower[r][r]
    return inverse


def lower_factor(q):
    """The lower triangle V, with a positive diagonal, for which V' V = q."""
    n = len(q)
    v = matrix(n, n, lambda r, c: 0.0)
    for r in reversed(range(n)):
        v[r][r] = math.sqrt(q[r][r] - sum(v[k][r] ** 2 for k in range(r + 1, n)))
        for c in range(r):
            v[r][c] = (q[r][c] - sum(v[k][r] * v[k][c] for k in range(r + 1, n))) / v[r][r]
    return v


def load_tables(horizon):
    n = 3 * horizon
    gamma = matrix(2 * horizon, 2, lambda r, c: DECAY ** (r // 2 + 1) if r % 2 == c else 0.0)
    upsilon = matrix(2 * horizon, n, lambda r, c: 0.0 if c // 3 > r // 2 else
                     DECAY ** (r // 2 - c // 3) * GAIN * CLARKE[r % 2][c % 3])
    changes = matrix(n, n, lambda r, c: 1.0 if r == c else -1.0 if r == c + 3 else 0.0)
    tracking = times(list(zip(*upsilon)), upsilon)
    switching = times(list(zip(*changes)), changes)
    q = matrix(n, n, lambda r, c: tracking[r][c] + WEIGHT * switching[r][c])
    v = lower_factor(q)
    inverse = inverse_of_triangle(v)
    inverse_q = times(inverse, list(zip(*inverse)))
    return Tables(
        horizon, quantised(WEIGHT),
        Gamma=[[quantised(x) for x in row] for row in gamma],
        Upsilon=[[quantised(x) for x in row] for row in upsilon],
        P=[[quantised(-x) for x in row] for row in inverse_q],
        T=[[quantised(-x) for x in row] for row in zip(*inverse)],
        V=[[quantised(v[r][c]) for c in range(r + 1)] for r in range(n)])


# ---------------------------------------------------------------------------
# Sessions

class Session:
    """Lines for one table file. Answers are known at once, so that lines can depend on them."""

    def __init__(self, name, table_file):
        self.name = name
        self.table_file = table_file
        self.input = b""
        self.console = board.Console((table_file or b"")[:board.MOST_OF_A_FILE])
        self.console.answer(b"LOAD")

    def say(self, line, end=b"\n"):
        line = line if isinstance(line, bytes) else line.encode("ascii")
        self.input += line + end
        return self.console.answer(line)

    def plan(self, command, numbers):
        """STEP or TRY; the levels, cost, count and mark that came of it."""
        words = self.say(" ".join([command] + [str(x) for x in numbers])).split()
        return [int(x) for x in words[1:4]], int(words[5]), int(words[7]), words[8]

    def around_the_limit(self, numbers, most=100000):
        """The same plan with a limit that suffices, is just met, one short, and 1; then fire it."""
        self.say(f"LIMIT {most}")
        _, _, nodes, mark = self.plan("TRY", numbers)
        limits = [nodes + 1, nodes, nodes - 1] if mark == "certified" else [nodes // 2]
        for limit in limits + [1]:
            if 1 <= limit <= 100000:
                self.say(f"LIMIT {limit}")
                self.plan("TRY", numbers)

    def write(self):
        folder = os.path.join(SESSIONS, self.name)
        os.makedirs(folder)
        files = {"input": self.input, "expected": answers(self.table_file, self.input)}
        if self.table_file is not None:
            files["tables.sdt"] = self.table_file
        for name, data in files.items():
            with open(os.path.join(folder, name), "wb") as file:
                file.write(data)


def answers(table_file, text):
    """All that board.py prints for this file and this input."""
    said = (answer for _, answer in board.conversation(table_file or b"", io.BytesIO(text)))
    return b"".join(answer.encode("ascii") + b"\n" for answer in said if answer is not None)


# The examples of console.md ---------------------------------------------------

def examples():
    session = Session("examples-of-the-documents", board.write_tables(stage_tables(1)))
    for line in ["STEP 0 0 2048 0", "STEP 0 0 2048 0", "BAR d", "LIMIT 0", "LIMIT -1", "LIMIT", "LIMIT  ",
                 "LIMIT 12345678", "LIMIT 5 x", "BAR", "BAR A", "BAR a b", "bar a", "  LOAD x", "STEP 1",
                 "STEP 1 + 2", "STEP 1 2", "STEP 9000 0 0", "STEP 9000 0 0 0", "STEP x"]:
        session.say(line)
    return session


# Every rule of the console at its edges ------------------------------------------

def console_words():
    """Rules 41 to 46 on tables of horizon 1: bytes, spaces, columns, lengths."""
    session = Session("console-words-and-lengths", board.write_tables(stage_tables(1)))
    for line in [
        # no word: nothing is printed
        b"", b" ", b"     ", b" " * 119, b" " * 120,
        # 120 bytes and 121, of spaces, of one word, of a good line
        b" " * 121, b"x" * 120, b"x" * 121, b" " * 119 + b"x", b" " * 120 + b"x", b"LOAD" + b" " * 116,
        b"LOAD" + b" " * 117, b" " * 116 + b"LOAD", b" " * 117 + b"LOAD", b"LIMIT" + b" " * 114 + b"7",
        b"LIMIT" + b" " * 115 + b"7", b"TRY" + b" " * 105 + b"0 0 2048 0 ", b"TRY" + b" " * 106 + b"0 0 2048 0 ",
        b"TRY" + b" " * 107 + b"0 0 2048 0 ", b"x" * 122, b"x" * 5000, b"STEP 0 0 2048 0" + b" " * 4096 + b"9",
        b"STEP" + b" " * 116, b"STEP" + b" " * 117, b"BAR" + b" " * 117, b"BAR" + b" " * 118,
        # commands: only these six, in capitals, alone
        b"load", b"Load", b"LOADS", b"LOA", b"LIMITS 5", b"bar a", b"STEPS 0 0 0 0", b"try 0 0 0 0", b"ok", b"QUIT",
        b"   HELP   me", b"-1", b"LOADx", b"LIMIT7", b"BARa", b"FREE\xa0a",
        # only the space parts words
        b"\tLOAD", b"LOAD\t", b"LOAD\r", b"\r", b"  \r", b"\t", b" \t ", b"LIMIT\t5", b"LIMIT 5\r", b"BAR a\r", b"BAR\ta",
        b"TRY 0\t0 0 0 0", b"TRY 0 0 0 0\r", b"TRY 0 0 2048\t0", b"LOAD\x00", b"\x00", b"\x0b LOAD", b"\x0cLOAD",
        b"LOAD \x00", b"LOAD \x0b", b"\xa0", b"\xc2\xa0LOAD", b"LOAD\x85", b"\xff\xfe\xfd", b"  \x80  ", b"L\xc3\x96AD",
        # LOAD takes no word
        b"LOAD", b"  LOAD  ", b"LOAD x", b"LOAD          x", b"LOAD tables.sdt LOAD", b"LOAD 1 2",
        # phases
        b"BAR", b"BAR ", b"  BAR   ", b"FREE", b"FREE   ", b"BAR d", b"BAR A", b"BAR ab", b"BAR aa", b"BAR a", b"BAR a a",
        b"BAR    b     x", b"BAR d e", b"BAR d a", b"BAR 0", b"BAR -", b"BAR \xe1", b"FREE a", b"FREE B", b"FREE a b c",
        b"FREE     c", b"FREE    d    ", b"FREE a,b", b"BAR\xff a", b"BAR a\xff",
        # one number behind LIMIT
        b"LIMIT", b"LIMIT ", b"LIMIT    ", b"LIMIT x", b"LIMIT x y", b"LIMIT 5 x", b"LIMIT 5 6", b"LIMIT  5      6  7",
        b"LIMIT x 6", b"LIMIT 0", b"LIMIT -0", b"LIMIT -1", b"LIMIT -9999999", b"LIMIT 100001", b"LIMIT 9999999",
        b"LIMIT 10000000", b"LIMIT 00000001", b"LIMIT 0000001", b"LIMIT -0000001", b"LIMIT -00000001", b"LIMIT +5",
        b"LIMIT 5.", b"LIMIT 1e3", b"LIMIT 0x10", b"LIMIT --5", b"LIMIT -", b"LIMIT 5-", b"LIMIT 1_0", b"LIMIT \xb2",
        b"LIMIT 5\xb2", b"LIMIT \xd9\xa5", b"LIMIT 1", b"TRY 0 0 2048 0", b"LIMIT 100000", b"TRY 0 0 2048 0",
        b"LIMIT 0000130",
        # numbers behind STEP and TRY
        b"STEP", b"STEP ", b"STEP x", b"STEP 1", b"STEP 1  ", b"STEP 1 x", b"STEP x x", b"TRY 1", b"TRY", b"TRY  -",
        b"STEP 1 +", b"STEP - 1 2 3", b"STEP 1 2", b"STEP 1 2 3", b"STEP 1 2 3 4 5", b"STEP 1 2 3 x 5", b"TRY 0 0 x",
        b"   TRY     0      0    2048     0    ", b"STEP -0 0 02048 -000", b"STEP 00000000 0 0 0", b"STEP 0 0 0 12345678",
        b"STEP 0 0 0 -12345678", b"STEP 0 0 0 1234567", b"STEP 0 0 0 -1234567", b"STEP 0 0 9 --9", b"STEP 0 0 9 9\xb9",
    ]:
        session.say(line)
    session.say(b"STEP 0 0 -2048 0", end=b"")
    return session


def console_numbers():
    """Numbers, counts of numbers, and the controller's refusals 25 and 26, at horizon 5."""
    session = Session("console-numbers-horizon-5", board.write_tables(stage_tables(5)))
    zeros = ["0"] * 14
    for count in range(0, 14):
        session.say(" ".join(["TRY"] + zeros[:count]))
    for place in range(14):                                 # a word that is no number, among 13 and among 12
        for count in (12, 13):
            words = list(zeros[:count])
            if place < count:
                words[place] = "x"
                session.say("  ".join(["TRY"] + words))
    for place in range(12):                                 # each value just within and just outside its range
        for value in ("8192", "8193", "-8192", "-8193"):
            words = zeros[:12]
            words[place] = value
            session.say(" ".join(["TRY"] + words))
    session.say("STEP 9000 9000 0 0 0 0 0 0 0 0 0 9000")
    session.say("STEP 0 9000 0 0 0 0 0 0 0 0 -9000 9000")
    session.say("STEP 0 0 0 0 0 0 0 0 0 0 -9000 9000")
    session.say("STEP 9999999 0 0 0 0 0 0 0 0 0 0")
    session.say("STEP 9999999 0 0 0 0 0 0 0 0 0 0 -9999999 0")
    session.say("STEP 9999999 0 0 0 0 0 0 0 0 0 0 -9999999 xxxxxxxx")
    words = ["STEP"] + ["-001234"] * 12
    line = " ".join(words)
    session.say(line + " " * (120 - len(line)))
    session.say(line + " " * (121 - len(line)))
    session.say(" " * (120 - len(line)) + line)
    session.say("STEP -12345678 0 0 0 0 0 0 0 0 0 0 0")
    session.say("STEP 0 -8192 8192 -8192 8192 -8192 8192 -8192 8192 -8192 8192 -8192")
    return session


# Ties ----------------------------------------------------------------------------

def halves(rng, size):
    """Numbers in the middle between two levels, and on levels."""
    return [rng.choice([-6144, -2048, 2048, 6144, -4096, 0, 4096]) for _ in range(size)]


def ties_by_stages(horizon):
    """Ties that can be followed by hand: every stage stands for itself."""
    rng = random.Random(f"stages {horizon}")
    session = Session(f"ties-by-stages-horizon-{horizon}", board.write_tables(stage_tables(horizon)))
    most = 100000 if horizon < 4 else 1500
    width = 2 * horizon
    # The plan has level 1 wherever 0 would be as cheap, the rounded guess has 0, and with limit 1 the start is
    # the answer: so it is seen that the remembered guess does not win when it is only as cheap.
    session.say("LIMIT 9000")
    session.plan("STEP", [0, 0] + ([2048, 0] if horizon == 1 else [0, 0] + [2048, 0] * (horizon - 1)))
    session.say("LIMIT 1")
    session.plan("TRY", [0, 0] + ([-2048, 0] if horizon == 1 else [2048, 0] * horizon))
    session.plan("TRY", [0, 0] + ([-2047, 0] if horizon == 1 else [2049, 0] + [2048, 0] * (horizon - 1)))
    for _ in range({1: 26, 2: 14, 3: 12, 4: 10, 5: 10}[horizon]):
        numbers = [0, 0] + halves(rng, width)
        session.around_the_limit(numbers, most)
        session.say(f"LIMIT {rng.choice([1, 2, 5, 130, most])}")
        session.plan("STEP", numbers)
        # the next plan meets a remembered sequence; a bar may make it impossible
        again = numbers[:2] + numbers[4:] + halves(rng, 2)
        session.say("LIMIT 1")
        session.plan("TRY", again)
        phase = rng.choice("abc")
        session.say(f"BAR {phase}")
        session.plan("TRY", again)
        session.say("LIMIT 400")
        session.plan(rng.choice(["TRY", "STEP"]), again)
        session.say(f"FREE {phase}")
        if rng.random() < 0.3:
            session.say("LIMIT 1")
            session.plan("TRY", again)
            session.say("LOAD")
            session.plan("TRY", again)
    return session


def small_numbers(rng, size):
    return [rng.choice([0, 0, 1, -1, 2, -2, 3, 2048, -2048, 2049, -2047, 4096, -4096, 4097, -4095, 1024, 6144])
            for _ in range(size)]


# Tables among whose plans every kind of tie decides something; found by trying.
MIXED = {1: 2, 2: 20, 3: 21, 4: 99, 5: 96}


def ties_mixed(horizon):
    """Small numbers everywhere: many sequences cost the same, many sums end in one half."""
    rng = random.Random(f"mixed {horizon}")
    tables = mixed_tables(random.Random(f"mixed tables {horizon} {MIXED[horizon]}"), horizon)
    session = Session(f"ties-mixed-horizon-{horizon}", board.write_tables(tables))
    most = {1: 100000, 2: 100000, 3: 100000, 4: 1500, 5: 1500}[horizon]
    session.say("TRY " + " ".join(["0"] * (2 + 2 * horizon)))       # the first limit, 130
    for _ in range({1: 24, 2: 14, 3: 12, 4: 12, 5: 12}[horizon]):
        numbers = small_numbers(rng, 2 + 2 * horizon)
        session.around_the_limit(numbers, most)
        session.say(f"LIMIT {rng.choice([1, 3, 30, 130, most])}")
        session.plan("STEP", numbers)
        again = numbers if rng.random() < 0.4 else small_numbers(rng, 2 + 2 * horizon)
        session.plan("TRY", again)
        session.say("LIMIT 1")
        session.plan("TRY", again)
        event = rng.choice(["BAR a", "BAR b", "BAR c", "LOAD", "FREE a", "FREE b", "FREE c"])
        session.say(event)
        session.plan("TRY", again)
        session.say("LIMIT 60")
        session.plan("STEP", again)
    return session


def rounding():
    """Each sum of the period in the middle between two counts, above and below zero.

    P and T are 4096 times too large for the step before, and V is 1, so that
    one count more or less is seen in the cost.
    """
    tables = stage_tables(2, w=3, unit=1)
    tables.Gamma = [[1, 0], [0, 1], [1, 1], [1, -1]]
    tables.Upsilon[0] = [4096, 2048, 1, 0, 0, 0]
    tables.Upsilon[1] = [0, 0, 0, 2048, -2048, 1]
    tables.Upsilon[2] = [0, 1024, 0, 0, 0, 3]
    for table, factor in ((tables.P, -2048), (tables.T, 2048)):
        for j in range(6):
            table[j] = [factor * (1 if k == j else 3 if k == j - 1 else 0) for k in range(6)]
    session = Session("rounding-halves-horizon-2", board.write_tables(tables))
    session.say("LIMIT 100000")
    for currents in ([0, 0], [2048, 0], [-2048, 0], [0, 2048], [0, -2048], [2047, 0], [-2049, 0], [1024, 1024],
                     [-1024, -1024], [1024, -1024], [-1023, 3071], [6144, 0], [-6144, 0], [8192, -8192], [2049, -1]):
        for references in ([0, 0, 0, 0], [1, 0, 0, 0], [-1, 0, 0, 0], [0, 1, 0, 0], [0, -1, 2, 0], [2048, 1, -2, 5]):
            session.plan("TRY", currents + references)
        session.plan("STEP", currents + [7, -5, 3, -1])
    # Unconstrained entries that one count moves from one level to another: with limit 1 the guess is the answer.
    session.say("LIMIT 1")
    for first in (4095, 4096, 4097, -4095, -4096, -4097, 4099, -4093):
        for third in (4095, 4097, -4095, -4097):
            session.plan("TRY", [0, 0, first, 0, third, 0])
    session.say("LOAD")
    for first in (4095, 4097, -4095, -4097):
        session.plan("TRY", [0, 0, first, 0, 0, first])
    return session


# Bars, loads and limits in a long run -----------------------------------------------

def bars_and_loads():
    """Every phase barred and freed, twice over, with loads and refused lines in between, at horizon 3."""
    rng = random.Random("bars and loads")
    tables = mixed_tables(random.Random("bars and loads tables 7"), 3)
    session = Session("bars-and-loads-horizon-3", board.write_tables(tables))
    session.say("LIMIT 600")
    events = ["BAR a", "BAR b", "BAR c", "FREE b", "LOAD", "BAR b", "BAR b", "FREE a", "FREE a", "FREE b", "LOAD", "LOAD",
              "FREE c", "LIMIT 0", "BAR x", "LIMIT 40", "BAR a", "LOAD", "FREE a", "BAR c", "BAR b", "BAR a", "LOAD",
              "FREE c", "FREE b", "FREE a", "LIMIT 600"]
    for event in events * 2:
        numbers = small_numbers(rng, 8)
        session.plan("STEP", numbers)
        session.say(event)
        session.plan("TRY", numbers)
        session.plan("TRY", small_numbers(rng, 8))
        session.plan("TRY", numbers)
        session.say("STEP 8193 0 0 0 0 0 0 0")                  # refused: changes nothing
    return session


# A load with a controller ------------------------------------------------------------

def closed_loop(horizon, periods, name, events):
    """Currents that follow from the levels applied, and references that turn."""
    rng = random.Random(name)
    session = Session(name, board.write_tables(load_tables(horizon)))
    current = [0.0, 0.0]
    for k in range(periods):
        for line in events.get(k, []):
            session.say(line)
        amplitude = 1.2 if k < periods // 2 else 0.7
        references = []
        for stage in range(1, horizon + 1):
            angle = 2 * math.pi * (k + stage) / 40
            references += [quantised(amplitude * math.cos(angle)), quantised(amplitude * math.sin(angle))]
        measured = [max(-8192, min(8192, quantised(x) + rng.randint(-3, 3))) for x in current]
        levels, _, _, _ = session.plan("STEP", measured + references)
        current = [DECAY * i + GAIN * sum(g * u for g, u in zip(row, levels)) for i, row in zip(current, CLARKE)]
    return session


# The largest numbers -----------------------------------------------------------------

def largest():
    """Costs past 53 bits, sums past 32 bits."""
    session = Session("largest-numbers-horizon-5", board.write_tables(greatest_tables(5)))
    session.say("LIMIT 300")
    for sign in (1, -1):
        for value in (8192, -8192, 8191, -8191):
            session.plan("STEP", [8192 * sign] * 2 + [value] * 10)
    rng = random.Random("largest")
    for _ in range(30):
        session.plan("STEP", [rng.choice([8192, -8192, 8191]) for _ in range(12)])
    return session


def wild(horizon):
    """Any tables within the limits."""
    rng = random.Random(f"wild {horizon}")
    session = Session(f"wild-tables-horizon-{horizon}", board.write_tables(wild_tables(rng, horizon)))
    session.say("LIMIT 500")
    for _ in range(25):
        session.plan(rng.choice(["STEP", "TRY"]), [rng.randint(-8192, 8192) for _ in range(2 + 2 * horizon)])
    return session


# Table files that are refused --------------------------------------------------------

def with_entry(data, offset, value):
    return data[:offset] + value.to_bytes(4, "little", signed=True) + data[offset + 4:]


def refused_files():
    """One for each of 1 to 7, with later faults in the same file where there can be any."""
    one = board.write_tables(stage_tables(1))
    two = board.write_tables(stage_tables(2))
    five = board.write_tables(stage_tables(5))
    first_v = {1: 6 + 4 * (1 + 4 + 24), 2: 6 + 4 * (1 + 8 + 96)}
    files = {
        "file-1-missing": None,
        "file-1-five-bytes-and-wrong-letters": b"XDT\x02\x00",
        "file-2-letters-before-version-and-horizon": b"SDt\x02\x00\x09" + one[6:100],
        "file-3-version-257-before-horizon": b"SDT\x01\x01\x06" + one[6:],
        "file-4-horizon-0-of-six-bytes": one[:5] + b"\x00",
        "file-4-horizon-6-before-length": one[:5] + b"\x06" + one[6:140],
        "file-5-one-byte-over-before-entries": with_entry(one, 6, -1) + b"\x00",
        "file-5-header-alone": one[:6],
        "file-5-longer-than-4096": five + bytes(5000 - len(five)),
        "file-6-two-entries-the-first-is-named": with_entry(with_entry(two, first_v[2] - 4, 65537), 6 + 4 * 9, -4097),
        "file-6-minus-2000000-on-the-diagonal": with_entry(one, 142, -2000000),
        "file-7-diagonal-before-a-later-limit": with_entry(with_entry(one, first_v[1], 0), 142, 1048577),
    }
    for name, data in files.items():
        session = Session(name, data)
        for line in ["STEP 0 0 0 0", "TRY 1 2", "TRY 9000 0 0 0", "LIMIT 5", "LIMIT 0", "BAR a", "FREE a", "LOAD",
                     "TRY x", "", "LOAD"]:
            session.say(line)
        yield session


def recordings():
    yield examples()
    yield console_words()
    yield console_numbers()
    for horizon in range(1, 6):
        yield ties_by_stages(horizon)
    for horizon in range(1, 6):
        yield ties_mixed(horizon)
    yield rounding()
    yield bars_and_loads()
    yield closed_loop(5, 120, "closed-loop-horizon-5",
                      {0: ["LIMIT 20000"], 60: ["LIMIT 130"], 80: ["BAR b"], 84: ["FREE b"], 90: ["LOAD"], 100: ["LIMIT 12"]})
    yield closed_loop(3, 60, "closed-loop-horizon-3", {0: ["LIMIT 100000"], 30: ["BAR a", "BAR c"], 34: ["FREE a", "FREE c"]})
    yield largest()
    yield wild(4)
    yield from refused_files()


# ---------------------------------------------------------------------------
# Random sessions, for ./run

def damaged(rng, data):
    """A table file with one or two faults, or with none that matters."""
    for _ in range(rng.choice([1, 1, 2])):
        kind = rng.randrange(6)
        if kind == 0:
            data = data[:rng.choice([0, 3, 5, 6, 7, rng.randrange(len(data) + 1), max(0, len(data) - 1)])]
        elif kind == 1:
            data = data + bytes(rng.choice([1, 4, 600, 5000]))
        elif kind == 2 and len(data) > 5:
            offset = rng.randrange(6)
            data = data[:offset] + bytes([rng.choice([0, 1, 2, 5, 6, 83, 115, 255])]) + data[offset + 1:]
        elif kind == 3 and data:
            offset = rng.randrange(len(data))
            data = data[:offset] + bytes([rng.randrange(256)]) + data[offset + 1:]
        elif len(data) >= 10:
            entries = (len(data) - 6) // 4
            number = rng.choice([rng.randrange(entries), entries - 1, entries * 5 // 6])
            edge = rng.choice([-1, 1]) * rng.choice([8192, 4096, 1048576, 65536, 0, 2000000]) + rng.choice([-1, 0, 1])
            data = with_entry(data, 6 + 4 * number, edge)
    return data


def spoiled(rng, line):
    """A line with a fault, or with none that matters."""
    kind = rng.randrange(8)
    place = rng.randrange(len(line) + 1)
    if kind == 0:
        byte = rng.choice([0, 9, 11, 13, 32, 43, 45, 48, 97, 127, 128, 160, 255])
        return line[:place] + bytes([byte]) + line[place:]
    if kind == 1:
        return line[:place] + line[place + 1:]
    if kind == 2:
        return line[:place] + b" " * rng.randrange(1, 8) + line[place:]
    if kind == 3:
        return rng.choice([line.lower(), line.replace(b" ", b"\t"), line + b"\r", b" " + line])
    if kind == 4:
        return line + b" " * max(0, rng.choice([118, 119, 120, 121, 122, 300]) - len(line))
    if kind == 5:
        return line + rng.choice([b" x", b" 0", b" ", b" 00000000", b" -", b" +1"])
    if kind == 6:
        return rng.choice([b"", b" ", b"     ", b"\t", b" " * 121, b"x" * rng.choice([1, 120, 121, 9000])])
    return bytes(rng.choice([byte for byte in range(256) if byte != 10]) for _ in range(rng.randrange(1, 130)))


def any_words(rng):
    """A command, or nearly one, and any number of words that may or may not suit it."""
    command = rng.choice([b"LOAD", b"LIMIT", b"LIMIT", b"BAR", b"FREE", b"STEP", b"STEP", b"TRY", b"Step", b"ba"])
    pool = [b"0", b"1", b"-1", b"8192", b"-8192", b"8193", b"-8193", b"100000", b"100001", b"0000005", b"-0", b"a", b"b", b"c"]
    if rng.random() < 0.6:
        pool += [b"x", b"A", b"ab", b"12345678", b"-1234567", b"-12345678", b"00000001", b"+1", b"-", b"\xff", b"1\t", b"7.0"]
    count = rng.choice([0, 1, 1, 2, 3, 4, 11, 12, 13, 14, rng.randrange(15)])
    line = b" " * rng.choice([0, 0, 0, 1, 5]) + command
    for _ in range(count):
        line += b" " * rng.choice([1, 1, 1, 2, 4]) + rng.choice(pool)
    return line + b" " * rng.choice([0, 0, 0, 1, 3])


def random_line(rng, width, numbers, most):
    kind = rng.random()
    if kind < 0.58:
        values = numbers(rng, width)
        if rng.random() < 0.1:
            for place in rng.choices(range(width), k=2):
                values[place] = rng.choice([8192, 8193, -8192, -8193])
        line = " ".join([rng.choice(["STEP", "STEP", "TRY"])] + [str(x) for x in values])
    elif kind < 0.72:
        line = f"LIMIT {rng.choice([1, 2, 3, 9, rng.randint(1, 40), rng.randint(1, most), most, most, most])}"
    elif kind < 0.86:
        line = rng.choice(["BAR ", "FREE ", "FREE "]) + rng.choice("abc")
    elif kind < 0.9:
        line = "LOAD"
    else:
        return any_words(rng)
    line = line.encode("ascii")
    return spoiled(rng, line).replace(b"\n", b" ") if rng.random() < 0.1 else line


def random_session(seed):
    """The table file and the input of a random session; the same for the same seed."""
    rng = random.Random(f"random session {seed}")
    horizon = rng.choice([1, 1, 2, 2, 3, 3, 4, 5])
    most = {1: 100000, 2: 100000, 3: 3000, 4: 1000, 5: 600}[horizon]     # dearer searches take too long here
    kind = rng.random()
    if kind < 0.25:
        tables, numbers = stage_tables(horizon, rng.choice([0, 2048, 4096]), rng.choice([1, 2048, 4096])), halves
    elif kind < 0.8:
        tables, numbers = mixed_tables(rng, horizon), small_numbers
    elif kind < 0.9:
        tables, numbers = load_tables(horizon), halves
    else:
        tables, numbers = wild_tables(rng, horizon), lambda rng, size: [rng.randint(-8192, 8192) for _ in range(size)]
    table_file = board.write_tables(tables)
    if rng.random() < 0.15:
        table_file = damaged(rng, table_file)
    session = Session("random", table_file)
    controller = session.console.controller
    for _ in range(rng.randint(5, 30) if controller.tables else rng.randint(1, 6)):
        line = random_line(rng, 2 + 2 * horizon, numbers, most)
        answer = session.say(line)
        if controller.limit_of_nodes > most:                # by an accident with a damaged line
            session.say(f"LIMIT {most}")
        if answer and answer.endswith("certified") and line.startswith(b"TRY") and rng.random() < 0.5:
            nodes = int(answer.split()[7])                  # the same plan with a limit that is just met, or one short
            session.say(f"LIMIT {max(1, nodes - rng.randrange(2))}")
            session.say(line)
    text = session.input
    return table_file, text if rng.random() < 0.7 else text[:-1]


def main():
    if os.path.isdir(SESSIONS):
        shutil.rmtree(SESSIONS)
    total = 0
    for session in recordings():
        session.write()
        folder = os.path.join(SESSIONS, session.name)
        size = sum(os.path.getsize(os.path.join(folder, name)) for name in os.listdir(folder))
        total += size
        print(f"{session.name}: {session.input.count(bytes([10]))} lines, {size} bytes")
    print(f"{total} bytes in all")
    return 0


if __name__ == "__main__":
    sys.exit(main())
