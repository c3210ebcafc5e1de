#!/usr/bin/env python3
"""Lists the places of crates/*/src that are written in older forms, point by point, with their lines.

    python3 tools/forms.py [COMMIT] [--list]

Without COMMIT the working tree is read. Tests and programs count as well. The last column of docs/DESIGN-PASS.md's first table comes
from this script. It sees text only: what only a reader sees is listed on that page by hand.
"""
import io
import re
import subprocess
import sys
import tarfile
from collections import defaultdict
from pathlib import Path

HERE = Path(__file__).resolve().parent.parent


def sources(commit):
    """Path to text, for every .rt file below crates/*/src."""
    if commit is None:
        return {str(p.relative_to(HERE)): p.read_text() for p in sorted(HERE.glob("crates/*/src/**/*.rt"))}
    blob = subprocess.run(["git", "-C", str(HERE), "archive", commit, "crates"], check=True, capture_output=True).stdout
    found = {}
    with tarfile.open(fileobj=io.BytesIO(blob)) as tar:
        for member in tar.getmembers():
            if member.isfile() and re.match(r"crates/[^/]+/src/.*\.rt$", member.name):
                found[member.name] = tar.extractfile(member).read().decode()
    return dict(sorted(found.items()))


def without_comments(text):
    return re.sub(r"//[^\n]*", lambda m: " " * len(m.group()), text)


def line_of(text, at):
    return text.count("\n", 0, at) + 1


# name of the count, pattern over one file's text without comments
PATTERNS = {
    "1 refusals by number": r"(?#library)\b(?:refusal|leg_fault|refused|console_fault)\(\s*\d+|\bnumber: u8\b|\breason\(\w+\.number",
    "1 Option or Result taken apart and put together again": r"Some\((?:ref )?\w+\)\s*=>\s*\{?\s*Some\(|Some\(\w+\)\s*=>\s*\w+,\s*None\s*=>|Ok\(_\)\s*=>\s*(?:\w+::)?None|Ok\(\(\)\)\s*=>\s*\{\},?|Err\((\w+)\)\s*=>\s*return Err\(\1\)|Ok\(\(\)\)\s*=>\s*Ok|Ok\(\w+\)\s*=>\s*Some\(|\?;\s*Ok\(None\)",
    "1 flag beside a value": r"\bcertified: bool\b|\bpending: bool\b|\bbar: bool\b|\bstart_kept: bool\b",
    "3 loop with a counter of its own": r"\bwhile\s+[^\n{]*\b(?:len\(\)|<|>)[^\n{]*\{|\b\w+ \+= 1;|\b(\w+) = \1\.saturating_add\(1\);",
    "3 for over the numbers of a list's places": r"for (\w+) in 0\.\.[^{]*\{(?:(?!\n    \}).)*?\[\s*\1\b",
    "3 for over numbers, with no list read at them": r"for (\w+) in [^{\n]*\.\.[^{\n]*\{(?!(?:(?!\n    \}).)*?\[\s*\1\b)",
    "4 text or number made or read by hand": r"\bfn (?:put\w*|word|letter|reason|table_of|entry_of|named_verb|is|limit_of|mark_bytes|replied|value_at|word_at)\b",
    "4 public plain type without Debug and PartialEq": r"(?<!\w)#\[derive\(Clone, Copy\)\]\s*pub (?:struct|enum) \w+",
    "6 array with a length beside": r"(?:entries|levels|values|front): \[\w+; [\w:]+\],|sequence: \[u8; 15\],",
    "7 the same switch again": r"match (?:phase|build\(&problem\.[abc]\)\?|\w+\.bar) \{",
}

FUNCTION = re.compile(r"\bfn (\w+)(<[^{;]*?>)?\(([^)]*)\)([^{;]*(?:\{[^\n]*\}[^{;]*)*)", re.S)
CLAUSE = re.compile(r"^\s*(requires|ensures)(?: \w+)? \{ (.*) \}$", re.M)


def together(texts):
    """Sets of two or more parameters (by name) that three or more functions of a crate share."""
    by = defaultdict(list)
    for path, text in texts.items():
        crate = path.split("/")[1]
        for m in FUNCTION.finditer(without_comments(text)):
            names = re.findall(r"(?:^|,)\s*(?:mut )?(\w+)\s*:", m.group(3))
            if "&self" in m.group(3) or "self," in m.group(3):
                names.append("self")
            for i, a in enumerate(names):
                for b in names[i + 1:]:
                    by[crate, tuple(sorted((a, b)))].append(f"{path}:{line_of(text, m.start())} {m.group(1)}")
    return {k: v for k, v in by.items() if len(v) >= 3}


def facts(texts):
    """Requires clauses that three or more functions of a crate share, word for word up to the names of variables' times."""
    by = defaultdict(list)
    for path, text in texts.items():
        crate = path.split("/")[1]
        for m in CLAUSE.finditer(text):
            if m.group(1) == "requires":
                fact = re.sub(r"\.(now|old|new|entry)\b", "", m.group(2)).strip()
                by[crate, fact].append(f"{path}:{line_of(text, m.start())}")
    return {k: v for k, v in by.items() if len(v) >= 3}


TOKEN = re.compile(r"[A-Za-z_]\w*|\d[\w.]*|\"[^\"\n]*\"|\S")


def bodies(text):
    """Name, place and body of each function that has one."""
    plain = without_comments(text)
    for m in re.finditer(r"\bfn (\w+)", plain):
        at, depth = m.end(), 0
        # the body begins at the first brace that opens a line, or ends one that has no clause
        start = re.compile(r"(?:^\s*\{\s*$)|(?:^(?!\s*(?:requires|ensures|ghost))[^\n]*\{\s*$)", re.M).search(plain, plain.rfind("\n", 0, m.start()) + 1)
        end = plain.find(";", at)
        if start is None or (0 <= end < start.start() and "{" not in plain[at:end]):
            continue
        i = plain.index("{", start.start()) if plain[start.start():start.end()].strip() == "{" else start.end() - 1 - len(plain[start.start():start.end()]) + len(plain[start.start():start.end()].rstrip())
        for k in range(i, len(plain)):
            depth += (plain[k] == "{") - (plain[k] == "}")
            if depth == 0:
                break
        yield m.group(1), line_of(plain, m.start()), plain[i + 1:k]


def twins(texts):
    """Functions whose bodies, of a dozen words and signs or more, differ in names, numbers and texts alone."""
    keep = {"match", "if", "else", "for", "in", "return", "let", "mut", "while", "loop", "break", "Some", "None", "Ok", "Err", "self"}
    by = defaultdict(list)
    for path, text in texts.items():
        for name, line, body in bodies(text):
            tokens = TOKEN.findall(body)
            if len(tokens) >= 12:
                shape = " ".join(t if t in keep or not (t[0].isalnum() or t[0] in "_\"") else "x" for t in tokens)
                by[shape].append(f"{path}:{line} {name}")
    return {k: v for k, v in by.items() if len(v) >= 2}


def main():
    args = [a for a in sys.argv[1:] if not a.startswith("--")]
    listing = "--list" in sys.argv
    texts = sources(args[0] if args else None)
    for name, pattern in PATTERNS.items():
        regex = re.compile(pattern, re.S)
        places = []
        for path, text in texts.items():
            # a test that says a number tests the number
            if "(?#library)" in pattern and "tests" in path:
                continue
            plain = without_comments(text)
            places += [f"{path}:{line_of(plain, m.start())}" for m in regex.finditer(plain)]
        print(f"{len(places):4}  {name}")
        if listing:
            for place in places:
                print(f"        {place}")
    groups = twins(texts)
    print(f"{sum(len(v) - 1 for v in groups.values()):4}  2 functions of one shape with another, in {len(groups)} groups")
    if listing:
        for places in groups.values():
            print("        " + " ~ ".join(places))
    for name, groups in (("5 pairs of parameters in three functions or more", together(texts)), ("5 requires in three functions or more", facts(texts))):
        print(f"{len(groups):4}  {name}")
        if listing:
            for (crate, what), places in sorted(groups.items(), key=str):
                print(f"        {crate}: {what if isinstance(what, str) else ', '.join(what)}: {len(places)} functions")
    lines = sum(t.count("\n") for t in texts.values())
    print(f"{lines:4}  lines of source")


main()
