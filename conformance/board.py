#!/usr/bin/env python3
"""A plain board, written from the documents alone.

It reads a table file, answers LOAD, and then answers every line of standard
input with the bytes that the documents ask for.

    board.py [--tables PATH] [--check]

    --tables PATH   the table file (otherwise tables.sdt in this folder)
    --check         decode every plan a second time, straight from the
                    definition of due nodes, wherever there are few enough
                    sequences for that; stop with status 3 if the two differ

Parts, from the bottom up: refusals, table file, legs, measure, period,
decoder, controller, console, program. Each names the page that it follows.
Nothing here is clever; it is meant to be read beside the pages.
"""

import argparse
import sys
from dataclasses import dataclass


# ---------------------------------------------------------------------------
# Refusals (refusals.md)

class Refusal(Exception):
    """Something was turned down, by a layer, for a numbered rule, at a place."""

    def __init__(self, layer, number, place=0):
        super().__init__(layer, number, place)
        self.layer, self.number, self.place = layer, number, place

    def text(self):
        return f"no {self.layer} {self.number} {self.place}"


# ---------------------------------------------------------------------------
# The table file (table-file.md)

HEADER_BYTES = 6
ENTRY_BYTES = 4


def layout(horizon):
    """The six tables in the order of the file.

    Each is (name, length of each of its rows, least entry, greatest entry).
    """
    n = 3 * horizon
    return [
        ("w", [1], 0, 65536),
        ("Gamma", [2] * (2 * horizon), -8192, 8192),
        ("Upsilon", [n] * (2 * horizon), -4096, 4096),
        ("P", [n] * n, -1048576, 1048576),
        ("T", [n] * n, -65536, 65536),
        ("V", list(range(1, n + 1)), -1048576, 1048576),
    ]


def file_length(horizon):
    """How many bytes a file of this horizon has."""
    entries = sum(sum(row_lengths) for _, row_lengths, _, _ in layout(horizon))
    return HEADER_BYTES + ENTRY_BYTES * entries


@dataclass
class Tables:
    """The tables of a file; each but w is a list of rows, V a lower triangle."""
    horizon: int
    w: int
    Gamma: list
    Upsilon: list
    P: list
    T: list
    V: list


def read_tables(data):
    """The tables that these bytes say, or the first refusal that they earn."""
    if len(data) < HEADER_BYTES:
        raise Refusal("file", 1, len(data))
    if data[0:3] != b"SDT":
        raise Refusal("file", 2, 0)
    if int.from_bytes(data[3:5], "little") != 1:
        raise Refusal("file", 3, 3)
    horizon = data[5]
    if not 1 <= horizon <= 5:
        raise Refusal("file", 4, 5)
    if len(data) != file_length(horizon):
        raise Refusal("file", 5, len(data))

    rows_of = {}
    offset = HEADER_BYTES
    for name, row_lengths, least, greatest in layout(horizon):
        rows_of[name] = []
        for row_length in row_lengths:
            row = []
            for column in range(row_length):
                entry = int.from_bytes(data[offset:offset + ENTRY_BYTES], "little", signed=True)
                if not least <= entry <= greatest:
                    raise Refusal("file", 6, offset)
                on_diagonal = name == "V" and column == row_length - 1
                if on_diagonal and entry < 1:
                    raise Refusal("file", 7, offset)
                row.append(entry)
                offset += ENTRY_BYTES
            rows_of[name].append(row)
    rows_of["w"] = rows_of["w"][0][0]
    return Tables(horizon, **rows_of)


def write_tables(tables):
    """The bytes of a file with these tables. Limits are not looked at."""
    data = bytearray(b"SDT" + (1).to_bytes(2, "little") + bytes([tables.horizon]))
    for name, _, _, _ in layout(tables.horizon):
        rows = [[tables.w]] if name == "w" else getattr(tables, name)
        for row in rows:
            for entry in row:
                data += entry.to_bytes(ENTRY_BYTES, "little", signed=True)
    return bytes(data)


# ---------------------------------------------------------------------------
# Legs (legs-and-measures.md)

class NpcLeg:
    """Positions 0, 1, 2 with levels -1, 0, 1; at most one step in a period."""
    positions = 3
    rest = 1

    def has(self, position):
        return 0 <= position < self.positions

    def level(self, position):
        return position - 1 if self.has(position) else 0

    def permits(self, old, new):
        return self.has(old) and self.has(new) and abs(old - new) <= 1


class BarredLeg:
    """A leg under a bar: set, it leaves nothing but holding."""

    def __init__(self, below, barred=False):
        self.below = below
        self.barred = barred
        self.positions = below.positions
        self.rest = below.rest

    def has(self, position):
        return self.below.has(position)

    def level(self, position):
        return self.below.level(position)

    def permits(self, old, new):
        if self.barred and old != new:
            return False
        return self.below.permits(old, new)


# ---------------------------------------------------------------------------
# The squared measure (legs-and-measures.md). Costs compare as numbers.

class Squared:
    start = 0

    def after(self, cost, difference):
        return cost + difference * difference


# ---------------------------------------------------------------------------
# One period (period.md)

COUNTS_PER_UNIT = 4096


def rounded(a):
    """a / 4096, to the nearest whole number, upward in the middle."""
    return (a + 2048) // 4096        # in Python // rounds down, below zero too


def dot(a, b):
    return sum(x * y for x, y in zip(a, b))


def test_values(horizon, currents, references):
    """Refuse a wrong number of references (26), then a value out of range (25)."""
    if len(references) != 2 * horizon:
        raise Refusal("controller", 26, len(references))
    for place, value in enumerate(currents + references):
        if not -8192 <= value <= 8192:
            raise Refusal("controller", 25, place)


def period(tables, applied_levels, currents, references):
    """The unconstrained entries and the target: two lists of 3N numbers."""
    test_values(tables.horizon, currents, references)
    e = [rounded(dot(currents, row)) - y for row, y in zip(tables.Gamma, references)]
    columns_of_upsilon = zip(*tables.Upsilon)
    theta = [rounded(dot(e, column)) for column in columns_of_upsilon]
    for j in range(3):
        theta[j] -= tables.w * applied_levels[j]
    unconstrained = [rounded(dot(theta, row)) for row in tables.P]
    target = [rounded(dot(theta, row)) for row in tables.T]
    return unconstrained, target


# ---------------------------------------------------------------------------
# The decoder (decoder.md). Entries, rows, phases and stages count from 0.

CERTIFIED, STOPPED = "certified", "stopped"


@dataclass
class Problem:
    """What is to be decoded."""
    legs: list            # one for each of the three phases
    measure: object
    V: list               # lower triangle: row j has j + 1 numbers
    target: list
    unconstrained: list
    applied: list         # the position in which each phase stands now
    remembered: tuple     # the sequence fired last, or None

    @property
    def length(self):
        return len(self.V)

    def leg(self, j):
        return self.legs[j % 3]


@dataclass
class Answer:
    sequence: tuple       # positions
    cost: object
    count: int
    mark: str


def choices(problem, beginning):
    """The positions that the entry behind this beginning may have, lowest first."""
    j = len(beginning)
    leg = problem.leg(j)
    origin = problem.applied[j] if j < 3 else beginning[j - 3]
    return [p for p in range(leg.positions) if leg.permits(origin, p)]


def is_feasible(problem, sequence):
    """Whether every entry of a full sequence is permitted after those before it."""
    return all(sequence[j] in choices(problem, sequence[:j]) for j in range(problem.length))


def cost_of(problem, entries):
    """What the rows of these entries cost, for a full sequence or a beginning."""
    levels = [problem.leg(j).level(p) for j, p in enumerate(entries)]
    cost = problem.measure.start
    for j in range(len(entries)):
        difference = problem.target[j] - dot(problem.V[j], levels[:j + 1])
        cost = problem.measure.after(cost, difference)
    return cost


# The start ------------------------------------------------------------------

def rounded_guess(problem):
    """Entry by entry the permitted level nearest to the unconstrained optimum."""
    guess = []
    for j in range(problem.length):
        def distance(position):
            level = problem.leg(j).level(position)
            return abs(COUNTS_PER_UNIT * level - problem.unconstrained[j])
        guess.append(min(choices(problem, guess), key=distance))   # of equals min takes the first: the lowest
    return tuple(guess)


def moved_on(sequence):
    """The sequence one stage on: the first stage dropped, the last put in once more."""
    return sequence[3:] + sequence[-3:]


def start_of(problem):
    """The sequence from which the search starts."""
    plain = rounded_guess(problem)
    if problem.remembered is None:
        return plain
    remembered = moved_on(problem.remembered)
    if is_feasible(problem, remembered) and cost_of(problem, remembered) < cost_of(problem, plain):
        return remembered
    return plain


# First decoder: the search, step by step as the page has it -----------------

def search(problem, limit):
    """Walk the due nodes in order without listing them."""
    n, V, after = problem.length, problem.V, problem.measure.after
    best = start_of(problem)
    best_cost = cost_of(problem, best)
    count = 0

    # One level for each entry. A level keeps its candidate, the cost of the
    # rows before it, and what is left of its row's target once the entries
    # before it are taken off.
    candidate = [0] * n
    cost_before = [problem.measure.start] * n
    left = [0] * n
    levels = [0] * n
    left[0] = problem.target[0]
    j = 0
    while True:
        leg = problem.leg(j)
        p = candidate[j]
        # 1. No such position: back one level, or finished.
        if not leg.has(p):
            if j == 0:
                return Answer(best, best_cost, count, CERTIFIED)
            j -= 1
            candidate[j] += 1
            continue
        # 2. A move that is not permitted is passed over and not counted.
        origin = problem.applied[j] if j < 3 else candidate[j - 3]
        if not leg.permits(origin, p):
            candidate[j] += 1
            continue
        # 3. A due node that may not be visited any more stops the search.
        if count == limit:
            return Answer(best, best_cost, count, STOPPED)
        # 4. Visit the node. Only what is dearer than the best is cut off.
        count += 1
        levels[j] = leg.level(p)
        cost = after(cost_before[j], left[j] - V[j][j] * levels[j])
        if cost > best_cost:
            candidate[j] += 1
            continue
        # 5. A full sequence becomes the best, also where it is only as cheap.
        if j == n - 1:
            best, best_cost = tuple(candidate), cost
            candidate[j] += 1
            continue
        # 6. Otherwise one level further.
        j += 1
        candidate[j] = 0
        cost_before[j] = cost
        left[j] = problem.target[j] - dot(V[j], levels[:j])


# Second decoder: from the definition of due nodes ---------------------------

def permitted_lists(problem):
    """Every permitted list of 1 to n entries."""
    of_this_length = [()]
    for _ in range(problem.length):
        of_this_length = [beginning + (p,) for beginning in of_this_length for p in choices(problem, beginning)]
        yield from of_this_length


def due_nodes(problem):
    """The list of all due nodes, in order.

    Python compares tuples as the page orders lists: the lower entry where
    they part decides, and where they never part the shorter stands first.
    """
    cost = {node: cost_of(problem, node) for node in permitted_lists(problem)}
    feasible = [node for node in cost if len(node) == problem.length]
    start_cost = cost_of(problem, start_of(problem))

    def stands_before(sequence, beginning):
        return sequence[:len(beginning)] < beginning

    def is_open(beginning):
        if start_cost < cost[beginning]:
            return False
        return not any(cost[sequence] < cost[beginning] and stands_before(sequence, beginning)
                       for sequence in feasible)

    open_beginnings = {node for node in cost if len(node) < problem.length and is_open(node)}
    return sorted(node for node in cost if len(node) == 1 or node[:-1] in open_beginnings)


def decode_by_definition(problem, limit):
    """The answer as the page defines it, by listing everything."""
    due = due_nodes(problem)
    visited = due[:limit]
    best = start_of(problem)
    best_cost = cost_of(problem, best)
    for node in visited:
        if len(node) == problem.length and cost_of(problem, node) <= best_cost:
            best, best_cost = node, cost_of(problem, node)
    mark = CERTIFIED if len(due) <= limit else STOPPED
    return Answer(best, best_cost, len(visited), mark)


# Both decoders, held against each other --------------------------------------

FEW_SEQUENCES = 400       # horizon 2 has at most 343; with bars set, longer horizons have as few


class DecodersDiffer(Exception):
    pass


def feasible_sequences(problem):
    """How many feasible sequences there are, counted phase by phase."""
    product = 1
    for leg, origin in zip(problem.legs, problem.applied):
        ways = {origin: 1}
        for _ in range(problem.length // 3):
            ways = {q: sum(w for p, w in ways.items() if leg.permits(p, q)) for q in range(leg.positions)}
        product *= sum(ways.values())
    return product


def search_and_check(problem, limit):
    """The search, held against the definition where there are few enough sequences."""
    found = search(problem, limit)
    if feasible_sequences(problem) <= FEW_SEQUENCES:
        defined = decode_by_definition(problem, limit)
        if found != defined:
            raise DecodersDiffer(f"{problem}\nlimit {limit}\nsearch     {found}\ndefinition {defined}")
    return found


# ---------------------------------------------------------------------------
# The controller (controller.md)

class Order:
    """What a plan yields. It is spent by fire or withdraw."""

    def __init__(self, identity):
        self.identity = identity


class Controller:

    def __init__(self, identity, measure, legs, decode=search):
        self.identity = identity
        self.measure = measure
        self.legs = [BarredLeg(leg) for leg in legs]
        self.decode = decode
        # The first day.
        self.applied = [leg.rest for leg in self.legs]
        self.limit_of_nodes = 130
        self.tables = None
        self.last_plan = None
        self.remembered = None
        self.order_is_open = False

    # Calls. Each is first held against an open order; fire and withdraw are not.

    def refuse_while_an_order_is_open(self):
        if self.order_is_open:
            raise Refusal("controller", 21)

    def load(self, data):
        self.refuse_while_an_order_is_open()
        self.tables = read_tables(data)
        self.last_plan = None
        self.remembered = None
        # Applied positions, limit and bars stay.

    def limit(self, nodes):
        self.refuse_while_an_order_is_open()
        if not 1 <= nodes <= 100000:
            raise Refusal("controller", 23)
        self.limit_of_nodes = nodes

    def bar(self, phase):
        self.set_bar(phase, True)

    def free(self, phase):
        self.set_bar(phase, False)

    def set_bar(self, phase, barred):
        self.refuse_while_an_order_is_open()
        if phase not in (0, 1, 2):
            raise Refusal("controller", 24)
        self.legs[phase].barred = barred

    def plan(self, currents, references):
        self.refuse_while_an_order_is_open()
        if self.tables is None:
            raise Refusal("controller", 22)
        levels = [leg.level(p) for leg, p in zip(self.legs, self.applied)]
        unconstrained, target = period(self.tables, levels, currents, references)
        problem = Problem(self.legs, self.measure, self.tables.V, target, unconstrained,
                          list(self.applied), self.remembered)
        self.last_plan = self.decode(problem, self.limit_of_nodes)
        self.order_is_open = True
        return Order(self.identity)

    def close(self, order):
        if order.identity != self.identity:
            raise Refusal("controller", 27)
        if not self.order_is_open:
            raise Refusal("controller", 28)
        self.order_is_open = False

    def fire(self, order):
        self.close(order)
        self.applied = list(self.last_plan.sequence[:3])
        self.remembered = self.last_plan.sequence

    def withdraw(self, order):
        self.close(order)

    # Readings. They alter nothing; None stands for "none".

    def entry(self, i):
        if self.last_plan is None or not 1 <= i <= len(self.last_plan.sequence):
            return None
        return self.last_plan.sequence[i - 1]

    def cost(self):
        return None if self.last_plan is None else self.last_plan.cost

    def count(self):
        return None if self.last_plan is None else self.last_plan.count

    def mark(self):
        return None if self.last_plan is None else self.last_plan.mark


# ---------------------------------------------------------------------------
# The console (console.md). Lines are bytes, without their line feed.

LONGEST_LINE = 120
COMMANDS = (b"LOAD", b"LIMIT", b"BAR", b"FREE", b"STEP", b"TRY")
PHASES = {b"a": 0, b"b": 1, b"c": 2}
FEWEST_AND_MOST_WORDS = {b"LOAD": (0, 0), b"LIMIT": (1, 1), b"BAR": (1, 1), b"FREE": (1, 1),
                         b"STEP": (2, 12), b"TRY": (2, 12)}


@dataclass
class Word:
    column: int           # of its first byte, counted from 1
    text: bytes


def words_of(line):
    """The longest runs of bytes other than the space."""
    words = []
    column = 1
    for piece in line.split(b" "):
        if piece:
            words.append(Word(column, piece))
        column += len(piece) + 1
    return words


def number_in(text):
    """The number that a word says, or None if it is no number."""
    digits = text[1:] if text.startswith(b"-") else text
    if not 1 <= len(digits) <= 7 or any(byte not in b"0123456789" for byte in digits):
        return None
    magnitude = int(digits.decode("ascii"))
    return -magnitude if text.startswith(b"-") else magnitude


def refuse_words(line, command, words):
    """Rules 42, 43 and 44, for the words behind the command."""
    fewest, most = FEWEST_AND_MOST_WORDS[command]
    if command in (b"BAR", b"FREE") and words and words[0].text not in PHASES:
        raise Refusal("console", 42, words[0].column)
    if command in (b"LIMIT", b"STEP", b"TRY"):
        for word in words[:most]:
            if number_in(word.text) is None:
                raise Refusal("console", 43, word.column)
    if len(words) < fewest:
        raise Refusal("console", 44, len(line) + 1)
    if len(words) > most:
        raise Refusal("console", 44, words[most].column)


class Console:

    def __init__(self, table_file, decode=search):
        self.table_file = table_file
        self.controller = Controller(1, Squared(), [NpcLeg(), NpcLeg(), NpcLeg()], decode)

    def answer(self, line):
        """The answer to one line, without its line feed; None where nothing is printed."""
        try:
            return self.obey(line)
        except Refusal as refusal:
            return refusal.text()

    def obey(self, line):
        if len(line) > LONGEST_LINE:
            raise Refusal("console", 46, LONGEST_LINE + 1)
        words = words_of(line)
        if not words:
            return None
        command, behind = words[0].text, words[1:]
        if command not in COMMANDS:
            raise Refusal("console", 41, words[0].column)
        refuse_words(line, command, behind)
        if command == b"LOAD":
            self.controller.load(self.table_file)
        elif command == b"LIMIT":
            self.controller.limit(max(0, number_in(behind[0].text)))
        elif command == b"BAR":
            self.controller.bar(PHASES[behind[0].text])
        elif command == b"FREE":
            self.controller.free(PHASES[behind[0].text])
        else:
            return self.plan(command, [number_in(word.text) for word in behind])
        return "ok"

    def plan(self, command, numbers):
        """STEP plans and fires, TRY plans and withdraws."""
        controller = self.controller
        order = controller.plan(numbers[:2], numbers[2:])
        if command == b"STEP":
            controller.fire(order)
        else:
            controller.withdraw(order)
        levels = [controller.legs[phase].level(controller.entry(phase + 1)) for phase in range(3)]
        return (f"ok {levels[0]} {levels[1]} {levels[2]} cost {controller.cost()}"
                f" nodes {controller.count()} {controller.mark()}")


# ---------------------------------------------------------------------------
# The program (console.md, "The program")

MOST_OF_A_FILE = 4096


def table_file_at(path):
    """The file's first 4,096 bytes; a missing file counts as an empty one."""
    try:
        with open(path, "rb") as file:
            return file.read(MOST_OF_A_FILE)
    except OSError:
        return b""


def lines_of(stream):
    """Each line without its line feed; of a line over 120 bytes only the first 121."""
    kept = LONGEST_LINE + 1
    while True:
        piece = stream.readline(kept + 1)
        if not piece:
            return
        if piece.endswith(b"\n"):
            yield piece[:-1]
            continue
        rest = piece
        while rest and not rest.endswith(b"\n"):        # let the rest of a long line go by
            rest = stream.readline(4096)
        yield piece[:kept]


def conversation(table_file, stream, decode=search):
    """Each line with its answer, one after the other: first the program's own LOAD."""
    console = Console(table_file[:MOST_OF_A_FILE], decode)
    yield b"LOAD", console.answer(b"LOAD")
    for line in lines_of(stream):
        yield line, console.answer(line)


def main():
    arguments = argparse.ArgumentParser(description="a plain board, written from the documents alone")
    arguments.add_argument("--tables", default="tables.sdt", metavar="PATH")
    arguments.add_argument("--check", action="store_true")
    chosen = arguments.parse_args()
    decode = search_and_check if chosen.check else search
    try:
        for _, answer in conversation(table_file_at(chosen.tables), sys.stdin.buffer, decode):
            if answer is not None:
                sys.stdout.buffer.write(answer.encode("ascii") + b"\n")
                sys.stdout.buffer.flush()
    except DecodersDiffer as difference:
        print("the two decoders differ:", difference, file=sys.stderr)
        return 3
    return 0


if __name__ == "__main__":
    sys.exit(main())
