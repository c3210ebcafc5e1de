#!/usr/bin/env python3
"""Shows that the recordings catch wrong boards.

Each mutant below is board.py with one rule read differently, as a supplier
might misread it. Every mutant must answer at least one recorded line otherwise
than recorded. Prints one line for each mutant with the recordings that catch
it, and a last line with how many were caught. Status 1 if one was not.

    mutants.py [WORD]       only mutants whose name has this word
"""

import io
import os
import sys
import types

HERE = os.path.dirname(os.path.abspath(__file__))
SESSIONS = os.path.join(HERE, "sessions")

# Each mutant: its name, then pairs of (text in board.py, text in its place).
MUTANTS = [
    # the table file
    ("file: letters looked at before the length of the header",
     ('if len(data) < HEADER_BYTES:', 'if data[0:3] == b"SDT" and len(data) < HEADER_BYTES:')),
    ("file: letters in any case", ('if data[0:3] != b"SDT":', 'if data[0:3].upper() != b"SDT":')),
    ("file: only the low byte of the version", ('int.from_bytes(data[3:5], "little") != 1', 'data[3] != 1')),
    ("file: version before letters",
     ('    if data[0:3] != b"SDT":\n', '    if data[3] != 1:\n        raise Refusal("file", 3, 3)\n    if data[0:3] != b"SDT":\n')),
    ("file: horizon before version",
     ('    if int.from_bytes(data[3:5]', '    if not 1 <= data[5] <= 5:\n        raise Refusal("file", 4, 5)\n    if int.from_bytes(data[3:5]')),
    ("file: horizon 0 permitted", ('if not 1 <= horizon <= 5:', 'if not 0 <= horizon <= 5:')),
    ("file: horizon 6 permitted", ('if not 1 <= horizon <= 5:', 'if not 1 <= horizon <= 6:')),
    ("file: longer files permitted", ('if len(data) != file_length(horizon):', 'if len(data) < file_length(horizon):')),
    ("file: entries before the length",
     ('    if len(data) != file_length(horizon):', '    if data[6:10] == b"\\xff\\xff\\xff\\xff":\n        raise Refusal("file", 6, 6)\n    if len(data) != file_length(horizon):')),
    ("file: diagonal before limits", ('                if not least <= entry <= greatest:',
                                      '                if name == "V" and column == row_length - 1 and entry < 1:\n'
                                      '                    raise Refusal("file", 7, offset)\n'
                                      '                if not least <= entry <= greatest:')),
    ("file: the entry's number for its offset", ('raise Refusal("file", 6, offset)', 'raise Refusal("file", 6, (offset - 6) // 4)')),
    ("file: diagonal of 0 permitted", ('if on_diagonal and entry < 1:', 'if on_diagonal and entry < 0:')),
    ("file: all limits before all diagonals",
     ('    rows_of = {}\n    offset = HEADER_BYTES\n',
      '    if abs(int.from_bytes(data[-4:], "little", signed=True)) > 1048576:\n        raise Refusal("file", 6, len(data) - 4)\n    rows_of = {}\n    offset = HEADER_BYTES\n')),
    ("file: more than 4,096 bytes taken", ('MOST_OF_A_FILE = 4096', 'MOST_OF_A_FILE = 100000')),
    ("file: Gamma column after column",
     ('for row, y in zip(tables.Gamma, references)]', 'for row, y in zip(by_columns(tables.Gamma), references)]'),
     ('def dot(a, b):', 'def by_columns(rows):\n    flat = [x for row in rows for x in row]\n'
      '    return [flat[r::len(rows)] for r in range(len(rows))]\n\n\ndef dot(a, b):')),
    ("file: Upsilon column after column",
     ('zip(*tables.Upsilon)', 'zip(*by_columns(tables.Upsilon))'),
     ('def dot(a, b):', 'def by_columns(rows):\n    flat = [x for row in rows for x in row]\n'
      '    return [flat[r::len(rows)] for r in range(len(rows))]\n\n\ndef dot(a, b):')),
    ("file: V column after column",
     ('self.measure, self.tables.V,', 'self.measure, by_columns(self.tables.V),'),
     ('def dot(a, b):', 'def by_columns(rows):\n    flat = iter([x for row in rows for x in row])\n    n = len(rows)\n'
      '    columns = [[next(flat) for _ in range(n - c)] for c in range(n)]\n'
      '    return [[columns[c][r - c] for c in range(r + 1)] for r in range(n)]\n\n\ndef dot(a, b):')),
    # legs
    ("legs: two steps at once", ('abs(old - new) <= 1', 'abs(old - new) <= 2')),
    ("legs: a bar does not bind", ('if self.barred and old != new:', 'if False:')),
    ("legs: a bar binds to the rest position", ('if self.barred and old != new:', 'if self.barred and new != self.rest:')),
    # the period
    ("period: rounds toward zero", ('return (a + 2048) // 4096', 'return int(a / 4096)')),
    ("period: rounds down", ('return (a + 2048) // 4096', 'return a // 4096')),
    ("period: rounds halves down", ('return (a + 2048) // 4096', 'return (a + 2047) // 4096')),
    ("period: rounds halves away from zero",
     ('return (a + 2048) // 4096', 'return (a + 2048) // 4096 if a >= 0 else -((-a + 2048) // 4096)')),
    ("period: rounds halves to even", ('return (a + 2048) // 4096', 'return round(a / 4096)')),
    ("period: e rounds halves down", ('e = [rounded(dot(currents, row))', 'e = [rounded(dot(currents, row) - 1)')),
    ("period: theta rounds halves down", ('theta = [rounded(dot(e, column))', 'theta = [rounded(dot(e, column) - 1)')),
    ("period: unconstrained rounds halves down",
     ('unconstrained = [rounded(dot(theta, row))', 'unconstrained = [rounded(dot(theta, row) - 1)')),
    ("period: target rounds halves down", ('target = [rounded(dot(theta, row))', 'target = [rounded(dot(theta, row) - 1)')),
    ("period: each product rounded", ('e = [rounded(dot(currents, row))',
                                     'e = [sum(rounded(x * y) for x, y in zip(currents, row))')),
    ("period: each product of theta rounded", ('theta = [rounded(dot(e, column))',
                                               'theta = [sum(rounded(x * y) for x, y in zip(e, column))')),
    ("period: each product of the target rounded", ('target = [rounded(dot(theta, row))',
                                                    'target = [sum(rounded(x * y) for x, y in zip(theta, row))')),
    ("period: weight on every stage", ('for j in range(3):\n        theta[j] -= tables.w * applied_levels[j]',
                                       'for j in range(len(theta)):\n        theta[j] -= tables.w * applied_levels[j % 3]')),
    ("period: weight left out", ('theta[j] -= tables.w', 'theta[j] -= 0 * tables.w')),
    ("period: weight added", ('theta[j] -= tables.w', 'theta[j] += tables.w')),
    ("period: positions for levels", ('levels = [leg.level(p) for leg, p in zip(self.legs, self.applied)]',
                                      'levels = list(self.applied)')),
    ("period: references added", (') - y for row', ') + y for row')),
    ("period: P by columns", ('for row in tables.P]', 'for row in zip(*tables.P)]')),
    ("period: T by columns", ('for row in tables.T]', 'for row in zip(*tables.T)]')),
    ("period: P for T", ('for row in tables.T]', 'for row in tables.P]')),
    # the start
    ("start: nearest of two goes up", ('min(choices(problem, guess), key=distance)',
                                       'min(reversed(choices(problem, guess)), key=distance)')),
    ("start: nearest of two goes to the origin",
     ('min(choices(problem, guess), key=distance)',
      'min(choices(problem, guess), key=lambda p: (distance(p), abs(p - (problem.applied[j] if j < 3 else guess[j - 3]))))')),
    ("start: nearest of two goes to zero",
     ('min(choices(problem, guess), key=distance)', 'min(choices(problem, guess), key=lambda p: (distance(p), abs(p - 1)))')),
    ("start: rounded from the target", ('problem.unconstrained[j])', 'problem.target[j])')),
    ("start: remembered when as cheap", ('cost_of(problem, remembered) < cost_of', 'cost_of(problem, remembered) <= cost_of')),
    ("start: remembered whenever feasible", ('if is_feasible(problem, remembered) and cost_of(problem, remembered) < cost_of(problem, plain):',
                                             'if is_feasible(problem, remembered):')),
    ("start: remembered though not feasible", ('if is_feasible(problem, remembered) and', 'if')),
    ("start: never remembered", ('if problem.remembered is None:', 'if True:')),
    ("start: remembered as it was", ('return sequence[3:] + sequence[-3:]', 'return sequence')),
    ("start: remembered with rest at its end", ('return sequence[3:] + sequence[-3:]', 'return sequence[3:] + (1, 1, 1)')),
    ("start: remembered with its old first stage at its end", ('return sequence[3:] + sequence[-3:]', 'return sequence[3:] + sequence[:3]')),
    ("start: one entry on", ('return sequence[3:] + sequence[-3:]', 'return sequence[1:] + sequence[-1:]')),
    # the search
    ("search: cut at equal cost", ('if cost > best_cost:', 'if cost >= best_cost:')),
    ("search: beginnings cut at equal cost", ('if cost > best_cost:', 'if cost > best_cost or cost == best_cost and j < n - 1:')),
    ("search: first of equal ones stays", ('            best, best_cost = tuple(candidate), cost',
                                          '            if cost < best_cost:\n                best, best_cost = tuple(candidate), cost')),
    ("search: start stays against an equal one",
     ('            best, best_cost = tuple(candidate), cost',
      '            if cost < best_cost or best != start_of(problem):\n                best, best_cost = tuple(candidate), cost')),
    ("search: first visited stays, start goes",
     ('            best, best_cost = tuple(candidate), cost',
      '            if cost < best_cost or not replaced:\n                best, best_cost = tuple(candidate), cost\n            replaced = True'),
     ('    count = 0\n', '    count = 0\n    replaced = False\n')),
    ("search: cuts with the start's cost only",
     ('    count = 0\n', '    count = 0\n    start_cost = best_cost\n'),
     ('if cost > best_cost:', 'if cost > (best_cost if j == n - 1 else start_cost):')),
    ("search: highest position first",
     ('        p = candidate[j]\n', '        p = leg.positions - 1 - candidate[j]\n'),
     ('else candidate[j - 3]\n        if not leg', 'else leg.positions - 1 - candidate[j - 3]\n        if not leg'),
     ('tuple(candidate)', 'tuple(problem.leg(k).positions - 1 - c for k, c in enumerate(candidate))')),
    ("search: stopped as soon as the limit is met",
     ('                return Answer(best, best_cost, count, CERTIFIED)',
      '                return Answer(best, best_cost, count, CERTIFIED if count < limit else STOPPED)')),
    ("search: a candidate that is not permitted stops it",
     ('        # 2. A move', '        if count == limit:\n            return Answer(best, best_cost, count, STOPPED)\n        # 2. A move')),
    ("search: a candidate that is not permitted counts",
     ('        if not leg.permits(origin, p):\n            candidate', '        if not leg.permits(origin, p):\n            count += 1\n            candidate'),
     ('if count == limit:', 'if count >= limit:')),
    ("search: nodes that are cut do not count",
     ('        if cost > best_cost:\n', '        if cost > best_cost:\n            count -= 1\n')),
    ("search: only full sequences count", ('        count += 1\n', '        count += j == n - 1\n')),
    ("search: one node over the limit", ('if count == limit:', 'if count == limit + 1:')),
    ("search: a stopped search answers with the start",
     ('return Answer(best, best_cost, count, STOPPED)', 'return Answer(start_of(problem), cost_of(problem, start_of(problem)), count, STOPPED)')),
    ("search: a search without the start", ('    best_cost = cost_of(problem, best)\n    count = 0', '    best_cost = 1 << 70\n    count = 0')),
    ("search: cost in doubles", ('return cost + difference * difference', 'return int(float(cost) + float(difference) * float(difference))')),
    ("search: cost in 32 bits", ('return cost + difference * difference', 'return (cost + difference * difference) % 2 ** 32')),
    ("search: cost without squares", ('return cost + difference * difference', 'return cost + abs(difference)')),
    # the controller
    ("controller: first limit of 100", ('self.limit_of_nodes = 130', 'self.limit_of_nodes = 100')),
    ("controller: rest at position 0", ('    rest = 1\n', '    rest = 0\n')),
    ("controller: load keeps the remembered sequence", ('        self.remembered = None\n        # Applied', '        # Applied')),
    ("controller: load puts the legs to rest", ('        # Applied positions, limit', '        self.applied = [leg.rest for leg in self.legs]\n        # Applied positions, limit')),
    ("controller: load sets the limit to 130", ('        # Applied positions, limit', '        self.limit_of_nodes = 130\n        # Applied positions, limit')),
    ("controller: load lifts the bars", ('        # Applied positions, limit', '        for leg in self.legs:\n            leg.barred = False\n        # Applied positions, limit')),
    ("controller: a plan that is withdrawn is remembered",
     ('    def withdraw(self, order):\n        self.close(order)\n', '    def withdraw(self, order):\n        self.close(order)\n        self.remembered = self.last_plan.sequence\n')),
    ("controller: a plan that is withdrawn makes it forget",
     ('    def withdraw(self, order):\n        self.close(order)\n', '    def withdraw(self, order):\n        self.close(order)\n        self.remembered = None\n')),
    ("controller: remembered moves on with every plan",
     ('        self.order_is_open = True\n', '        self.order_is_open = True\n        self.remembered = self.remembered and moved_on(self.remembered)\n')),
    ("controller: a bar makes it forget", ('        self.legs[phase].barred = barred', '        self.legs[phase].barred = barred\n        self.remembered = None')),
    ("controller: a limit makes it forget", ('        self.limit_of_nodes = nodes', '        self.limit_of_nodes = nodes\n        self.remembered = None')),
    ("controller: a bar twice is lifted", ('        self.legs[phase].barred = barred', '        self.legs[phase].barred = barred and not self.legs[phase].barred')),
    ("controller: freeing one frees all",
     ('        self.legs[phase].barred = barred', '        self.legs[phase].barred = barred\n        if not barred:\n            for leg in self.legs:\n                leg.barred = False')),
    ("controller: withdraw applies", ('            controller.withdraw(order)', '            controller.fire(order)')),
    ("controller: fire does not apply", ('        self.applied = list(self.last_plan.sequence[:3])\n', '')),
    ("controller: fire applies the last stage", ('self.last_plan.sequence[:3]', 'self.last_plan.sequence[-3:]')),
    ("controller: limit 0 permitted", ('if not 1 <= nodes <= 100000:', 'if not 0 <= nodes <= 100000:')),
    ("controller: limit 100,000 refused", ('if not 1 <= nodes <= 100000:', 'if not 1 <= nodes < 100000:')),
    ("controller: limit 100,001 permitted", ('if not 1 <= nodes <= 100000:', 'if not 1 <= nodes <= 100001:')),
    ("controller: 25 before 26",
     ('    if len(references) != 2 * horizon:', '    for place, value in enumerate(currents + references):\n        if not -8192 <= value <= 8192:\n            raise Refusal("controller", 25, place)\n    if len(references) != 2 * horizon:')),
    ("controller: 26 before 22",
     ('        if self.tables is None:', '        if len(references) % 2 or not references:\n            raise Refusal("controller", 26, len(references))\n        if self.tables is None:')),
    ("controller: 25 before 22",
     ('        if self.tables is None:', '        test_values(len(references) // 2, currents, references[:len(references) // 2 * 2])\n        if self.tables is None:')),
    ("controller: 8192 refused", ('if not -8192 <= value <= 8192:', 'if not -8192 <= value < 8192:')),
    ("controller: -8192 refused", ('if not -8192 <= value <= 8192:', 'if not -8192 < value <= 8192:')),
    ("controller: 8193 permitted", ('if not -8192 <= value <= 8192:', 'if not -8192 <= value <= 8193:')),
    ("controller: -8193 permitted", ('if not -8192 <= value <= 8192:', 'if not -8193 <= value <= 8192:')),
    ("controller: the last value out of range is named", ('enumerate(currents + references):', 'reversed(list(enumerate(currents + references))):')),
    ("controller: places from 1", ('enumerate(currents + references):', 'enumerate(currents + references, 1):')),
    ("controller: references before currents", ('enumerate(currents + references):', 'sorted(enumerate(currents + references), key=lambda x: x[0] < 2):')),
    ("controller: any even number of references", ('if len(references) != 2 * horizon:', 'if len(references) < 2 * horizon:')),
    # the console
    ("console: lines of 121 bytes", ('LONGEST_LINE = 120', 'LONGEST_LINE = 121'), ('46, LONGEST_LINE + 1)', '46, LONGEST_LINE)')),
    ("console: lines of 119 bytes", ('LONGEST_LINE = 120', 'LONGEST_LINE = 119'), ('46, LONGEST_LINE + 1)', '46, LONGEST_LINE + 2)')),
    ("console: the length of a long line for its place", ('        yield piece[:kept]', '        yield piece + rest'), ('46, LONGEST_LINE + 1)', '46, len(line))')),
    ("console: place of 46 is 120", ('46, LONGEST_LINE + 1)', '46, LONGEST_LINE)')),
    ("console: no word before 46", ('if len(line) > LONGEST_LINE:', 'if len(line) > LONGEST_LINE and words_of(line):')),
    ("console: a long line is answered in pieces", ('        rest = piece\n        while rest and not rest.endswith(b"\\n"):', '        rest = b""\n        while rest and not rest.endswith(b"\\n"):')),
    ("console: a line without a word is refused", ('            return None\n        command', '            raise Refusal("console", 41, 1)\n        command')),
    ("console: any white space parts words",
     ('for piece in line.split(b" "):', 'for piece in line.replace(b"\\t", b" ").replace(b"\\r", b" ").split(b" "):')),
    ("console: carriage return at the end dropped", ('            yield piece[:-1]\n', '            yield piece[:-1].rstrip(b"\\r")\n')),
    ("console: tabs part words", ('for piece in line.split(b" "):', 'for piece in line.replace(b"\\t", b" ").split(b" "):')),
    ("console: vertical tabs part words", ('for piece in line.split(b" "):', 'for piece in line.replace(b"\\x0b", b" ").split(b" "):')),
    ("console: hard spaces part words", ('for piece in line.split(b" "):', 'for piece in line.replace(b"\\xa0", b" ").split(b" "):')),
    ("console: a zero byte ends the line", ('        words = words_of(line)\n', '        words = words_of(line.split(b"\\0")[0])\n')),
    ("console: commands in any case", ('command, behind = words[0].text,', 'command, behind = words[0].text.upper(),')),
    ("console: commands by their beginning", ('if command not in COMMANDS:', 'command = next((c for c in COMMANDS if command.startswith(c)), command)\n        if command not in COMMANDS:')),
    ("console: columns from 0", ('    column = 1\n', '    column = 0\n')),
    ("console: words for columns", ('words.append(Word(column, piece))', 'words.append(Word(len(words) + 1, piece))')),
    ("console: place of 41 always 1", ('Refusal("console", 41, words[0].column)', 'Refusal("console", 41, 1)')),
    ("console: phases in any case", ('words[0].text not in PHASES', 'words[0].text.lower() not in PHASES'), ('PHASES[behind[0].text]', 'PHASES[behind[0].text.lower()]')),
    ("console: 44 before 42",
     ('    if command in (b"BAR", b"FREE") and words and', '    if command in (b"BAR", b"FREE") and len(words) == 1 and')),
    ("console: 42 for a missing phase", ('    if command in (b"BAR", b"FREE") and words and', '    if command in (b"BAR", b"FREE") and not words:\n        raise Refusal("console", 42, len(line) + 1)\n    if command in (b"BAR", b"FREE") and words and')),
    ("console: too few before 43", ('    if command in (b"LIMIT", b"STEP", b"TRY"):', '    if len(words) < fewest:\n        raise Refusal("console", 44, len(line) + 1)\n    if command in (b"LIMIT", b"STEP", b"TRY"):')),
    ("console: too many before 43", ('    if command in (b"LIMIT", b"STEP", b"TRY"):', '    if len(words) > most:\n        raise Refusal("console", 44, words[most].column)\n    if command in (b"LIMIT", b"STEP", b"TRY"):')),
    ("console: all words looked into", ('for word in words[:most]:', 'for word in words:')),
    ("console: the last word that is no number is named", ('for word in words[:most]:', 'for word in reversed(words[:most]):')),
    ("console: place of a missing word is the line's length", ('raise Refusal("console", 44, len(line) + 1)', 'raise Refusal("console", 44, len(line))')),
    ("console: place of a missing word is behind the last word",
     ('raise Refusal("console", 44, len(line) + 1)', 'raise Refusal("console", 44, len(line.rstrip(b" ")) + 1)')),
    ("console: spaces behind dropped", ('        words = words_of(line)\n', '        line = line.rstrip(b" ")\n        words = words_of(line)\n')),
    ("console: the last word too many is named", ('raise Refusal("console", 44, words[most].column)', 'raise Refusal("console", 44, words[-1].column)')),
    ("console: 13 numbers", ('b"STEP": (2, 12), b"TRY": (2, 12)', 'b"STEP": (2, 13), b"TRY": (2, 13)')),
    ("console: 11 numbers", ('b"STEP": (2, 12), b"TRY": (2, 12)', 'b"STEP": (2, 11), b"TRY": (2, 11)')),
    ("console: at least 4 numbers", ('b"STEP": (2, 12), b"TRY": (2, 12)', 'b"STEP": (4, 12), b"TRY": (4, 12)')),
    ("console: a plus is free", ('digits = text[1:] if text.startswith(b"-")', 'digits = text[1:] if text[:1] in (b"-", b"+")')),
    ("console: eight digits", ('if not 1 <= len(digits) <= 7', 'if not 1 <= len(digits) <= 8')),
    ("console: six digits", ('if not 1 <= len(digits) <= 7', 'if not 1 <= len(digits) <= 6')),
    ("console: the minus is a digit", ('if not 1 <= len(digits) <= 7', 'if not 1 <= len(text) <= 7 or not digits')),
    ("console: leading zeros are no digits", ('if not 1 <= len(digits) <= 7', 'digits = digits.lstrip(b"0") or digits[:1]\n    if not 1 <= len(digits) <= 7')),
    ("console: no leading zeros", ('if not 1 <= len(digits) <= 7', 'if not 1 <= len(digits) <= 7 or digits[:1] == b"0" and len(digits) > 1')),
    ("console: no -0", ('if not 1 <= len(digits) <= 7', 'if not 1 <= len(digits) <= 7 or text.startswith(b"-") and not digits.strip(b"0")')),
    ("console: a minus alone is 0", ('    if not 1 <= len(digits) <= 7 or', '    digits = digits or b"0"\n    if not 1 <= len(digits) <= 7 or')),
    ("console: a limit below 0 by its size", ('max(0, number_in(behind[0].text))', 'abs(number_in(behind[0].text))')),
    ("console: STEP as TRY", ('if command == b"STEP":', 'if False:')),
    ("console: positions for levels", ('controller.legs[phase].level(controller.entry(phase + 1))', 'controller.entry(phase + 1)')),
    ("console: a last line without a line feed is let go", ('        yield piece[:kept]', '        if rest:\n            yield piece[:kept]')),
    ("console: one more line at the end", ('        if not piece:\n            return', '        if not piece:\n            yield b"?"\n            return')),
    ("program: no LOAD of its own", ('    yield b"LOAD", console.answer(b"LOAD")', '    console.answer(b"LOAD")')),
]


def mutant_of(source, changes):
    for old, new in changes:
        if old not in source:
            raise SystemExit(f"mutants.py: this text is not in board.py any more:\n{old}")
        source = source.replace(old, new)
    module = types.ModuleType("mutant")
    sys.modules["mutant"] = module          # dataclasses look their module up
    exec(compile(source, "mutant", "exec"), module.__dict__)
    return module


def bytes_of(path):
    if not os.path.exists(path):
        return b""
    with open(path, "rb") as file:
        return file.read()


def differs(module, table_file, text, expected):
    """Whether the mutant's answers are not the expected ones. It is given up at the first that is not."""
    wanted = iter(expected.split(b"\n")[:-1])
    try:
        for _, answer in module.conversation(table_file, io.BytesIO(text)):
            if answer is not None and answer.encode("ascii") != next(wanted, None):
                return True
    except Exception:                       # a mutant that breaks down is caught too
        return True
    return next(wanted, None) is not None


def main():
    word = sys.argv[1] if len(sys.argv) > 1 else ""
    source = bytes_of(os.path.join(HERE, "board.py")).decode("utf-8")
    recordings = [(name, [bytes_of(os.path.join(SESSIONS, name, part)) for part in ("tables.sdt", "input", "expected")])
                  for name in sorted(os.listdir(SESSIONS))]
    tried, caught = 0, 0
    for name, *changes in MUTANTS:
        if word in name:
            module = mutant_of(source, changes)
            catching = [session for session, parts in recordings if differs(module, *parts)]
            tried += 1
            caught += bool(catching)
            print(f"{'caught' if catching else 'NOT CAUGHT'} {len(catching):2} {name}: {' '.join(catching)}", flush=True)
    print(f"{tried} mutants, {caught} caught")
    return 0 if tried == caught else 1


if __name__ == "__main__":
    sys.exit(main())
