#!/usr/bin/env python3
"""Respells the repository's own definitions and lemmas: words in snake case, facts in camel case, a prime as an apostrophe.

usage: python3 tools/respell_names.py        at the top of the repository, once, after the toolchain's own port.py

It collects what specs/ and proofs/ define (definitions, lemmas, fields, constructors) with a dash in its name, and writes the new
name wherever the old one stands in specs/, proofs/ and the clauses of src/. A name that a file imports from a library of the
toolchain is left alone there, and so are comments, strings and the names that the toolchain makes (goals, steps).
"""

import collections
import os
import re
import sys

STOP = r"\s(){}\[\];,.«»⌜⌝|@\"`"
# Names of a fact or a theorem, which are spelled like a type.
FACTS = {
    "All-within": "EachWithin",
    "Answers-line": "AnswersLine",
    "Answers_line": "AnswersLine",
    "Counts-are-meant": "CountsAreMeant",
    "Rounded-down": "RoundedDown",
    "Rounding-rows": "RoundingRows",
    "S-feasible": "start_is_feasible",
}
# Names in camel case, or with a sign that a word has not, and one that the toolchain has for a tactic.
OTHER = {
    "first_of": "first_some",
    "first-of": "first_some",
    "dropLast-short": "drop_last_short",
    "getD-backward": "get_or_backward",
    "fullsOf": "fulls_of",
    "nodesOf": "nodes_of",
    "due?": "due_or_not",
}


# Names under which a file takes a library's word or another module's, where the toolchain's script left an odd one.
ALIASES = {
    "rows_of_lem": "rows_of",
    "ahead_of_lem": "ahead_of",
    "start_of_lem": "start_of",
    "number_of_lem": "number_of",
    "Counts-of": "counts_of",
    "Cells-of": "cells_of",
    "type_size": "size_of",
    "pos'": "pos",
}
# Local names with a dash.
LOCAL = {
    "levels-fit": "levels_fit",
    "masks-fit": "masks_fit",
}


def texts(root):
    for folder, dirs, files in os.walk(os.path.join(root, "crates")):
        dirs[:] = sorted(d for d in dirs if d != "out")
        for f in sorted(files):
            if f.endswith((".rt", ".antt")):
                yield os.path.join(folder, f)


def made(path):
    return "/proofs/" in path and os.path.basename(path) in ("Answers.antt", "Invariants.antt")


def definitions(root):
    """The names that specs/ and proofs/ define, each with the files that define it."""
    names = collections.defaultdict(set)
    for path in texts(root):
        if not path.endswith(".antt") or made(path):
            continue
        for line in open(path, encoding="utf-8"):
            if line.lstrip().startswith("--"):
                continue
            m = re.match(r"^\s*(?:(?:abbrev|unfoldable|pub|data|record|let)\s+)*([^%s:→=λ]+)\s*(?:[({][^:]*:.*)?\s:(?!=)\s" % STOP, line)
            if m:
                names[m.group(1)].add(path)
            m = re.match(r"^\s*(?:(?:abbrev|unfoldable|pub)\s+)*(?:data|record)\s+(?:pub\s+)?([^%s:→=λ]+)" % STOP, line)
            if m:
                names[m.group(1)].add(path)
    return names


def spelled(name):
    if name in FACTS:
        return FACTS[name]
    if name in OTHER:
        return OTHER[name]
    return name.replace("-", "_").replace("′", "'")


def parts(line, rt):
    """A line as (text, whether it may be respelled): not within strings and comments."""
    out, i, start = [], 0, 0
    comment = "//" if rt else "--"
    while i < len(line):
        if line.startswith(comment, i) and (rt or i == 0 or line[i - 1] in " \t("):
            out.append((line[start:i], True))
            out.append((line[i:], False))
            return out
        if line[i] == '"':
            j = i + 1
            while j < len(line) and line[j] != '"':
                j += 2 if line[j] == "\\" else 1
            out.append((line[start:i], True))
            out.append((line[i : j + 1], False))
            i = start = j + 1
            continue
        i += 1
    out.append((line[start:], True))
    return out


def aliases(text):
    """The names that a file gives to what it imports, with their spelling."""
    names = {}
    for m in re.finditer(r"^\s*(?:ghost )?use [^{}\n]*\{([^}]*)\}", text, re.M):
        for item in m.group(1).split(","):
            if " as " in item:
                name = item.split(" as ")[1].strip()
                new = ALIASES.get(name, name.replace("-", "_"))
                if new != name:
                    names[name] = new
    return names


def respell_aliases(path):
    """Respells a file's aliases, and has it say AllByRecursion, since All is now the library's word for another definition."""
    text = open(path, encoding="utf-8").read()
    names = aliases(text)
    if re.search(r"AllByRecursion as All(?=[,}])", text):
        text = re.sub(r"AllByRecursion as All(?=[,}])", "AllByRecursion", text)
        names["All"] = "AllByRecursion"
    if path.endswith(".rt") and re.search(r"\{[^}]*\bget_or\b[^}]*\}", text):
        text = re.sub(r"\bget_or, |, get_or\b(?=[,}])", "", text) if "slice_index_or" in text else text
        names["get_or"] = "slice_index_or"
    names.update({n: new for n, new in LOCAL.items() if n in text and path.endswith(".rt")})
    if not names:
        return False
    there = set(re.findall("[^%s]+" % STOP, text))
    for old, new in sorted(names.items()):
        if new in there and new != "AllByRecursion":
            print("look, the new name stands there already: %s in %s" % (new, path))
    pattern = re.compile(r"(?<![^%s])(%s)(?![^%s])" % (STOP, "|".join(re.escape(n) for n in sorted(names, key=len, reverse=True)), STOP))
    rt = path.endswith(".rt")
    lines = ["".join(pattern.sub(lambda m: names[m.group(1)], t) if may else t for t, may in parts(line, rt)) for line in text.split("\n")]
    with open(path, "w", encoding="utf-8") as f:
        f.write(re.sub(r"\b(\w+) as \1(?=[,}])", r"\1", "\n".join(lines)))
    return True


def imported(text, crates):
    """The names that a file takes from a library of the toolchain."""
    own = re.compile(r"Rattle\.(?:%s)\." % "|".join(crates))
    names = set()
    for m in re.finditer(r"^\s*(?:ghost )?use ([^{}\n]*)\{([^}]*)\}", text, re.M):
        if own.match(m.group(1)):
            continue
        for item in m.group(2).split(","):
            names.add(item.strip().split(" as ")[-1].strip())
    return names


def main():
    root = "."
    crates = [n for n in sorted(os.listdir(os.path.join(root, "crates")))]
    print("%d files with other aliases" % sum(respell_aliases(p) for p in texts(root)))
    names = definitions(root)
    turned = {n: spelled(n) for n in names if spelled(n) != n}
    if not turned:
        print("nothing is left to respell")
        return
    taken = collections.defaultdict(list)
    for n in names:
        taken[spelled(n)].append(n)
    for new, old in sorted(taken.items()):
        if len(old) > 1:
            print("falls together: %s from %s (%s)" % (new, ", ".join(sorted(old)), "; ".join(sorted(set().union(*(names[o] for o in old))))))
    pattern = re.compile(r"(?<![^%s])(%s)(?![^%s])" % (STOP, "|".join(re.escape(n) for n in sorted(turned, key=len, reverse=True)), STOP))
    count = 0
    for path in texts(root):
        text = open(path, encoding="utf-8").read()
        library = imported(text, crates)
        rt = path.endswith(".rt")
        there = set(re.findall("[^%s]+" % STOP, text))

        def turn(m):
            n = m.group(1)
            if n == "first_of" and not path.endswith("fault/specs/Refusals.antt") and not re.search(r"fault\.specs\.Refusals\.\{[^}]*\bfirst_of\b", text):
                return n  # the tactic
            if n in library:
                print("left alone, a library's: %s in %s" % (n, path))
                return n
            if turned[n] in there:
                print("look, the new name stands there already: %s in %s" % (n, path))
            return turned[n]

        lines = []
        for line in text.split("\n"):
            lines.append("".join(pattern.sub(turn, t) if may else t for t, may in parts(line, rt)))
        new = "\n".join(lines)
        if new != text:
            count += 1
            with open(path, "w", encoding="utf-8") as f:
                f.write(new)
    print("%d names, %d files" % (len(turned), count))


if __name__ == "__main__":
    main()
