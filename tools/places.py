#!/usr/bin/env python3
"""Counts the places that docs/DESIGN-PASS.md speaks of: `python3 tools/places.py [POINT]`, at the top of a checkout.

With a point (1 to 8) it lists the places of that point too, one a line.
"""
import collections
import glob
import itertools
import re
import sys

SOURCES = sorted(glob.glob("crates/*/src/**/*.rt", recursive=True))
NAME = r"[A-Za-z_][A-Za-z_0-9]*"
FUNCTION = re.compile(rf"^( *)(?:pub )?fn ({NAME})", re.M)


def functions():
    """Each function: its file, line, name, parameters, and body without comments."""
    for path in SOURCES:
        text = open(path).read()
        for m in FUNCTION.finditer(text):
            indent = m.group(1)
            end = text.find(f"\n{indent}}}", m.end())
            whole = text[m.end() : end]
            start = whole.find(f"\n{indent}{{")
            if start < 0:
                start = whole.find("{")
            head, body = whole[:start], re.sub(r"//[^\n]*", "", whole[start:])
            depth, at = 0, head.find("(")
            for k in range(max(at, 0), len(head)):
                depth += {"(": 1, ")": -1}.get(head[k], 0)
                if depth == 0:
                    break
            line = text.count("\n", 0, m.start()) + 1
            yield path, line, m.group(2), head[at + 1 : k], body


def lines(pattern):
    for path in SOURCES:
        for number, line in enumerate(open(path), 1):
            if re.search(pattern, line.split("//")[0]):
                yield f"{path}:{number}: {line.strip()}"


def comments(pattern):
    for path in SOURCES:
        for number, line in enumerate(open(path), 1):
            if re.search(pattern, line) and line.strip().startswith("//"):
                yield f"{path}:{number}: {line.strip()}"


def shape(body):
    """A body without its names, types and numbers."""
    return re.sub(r"\s+", " ", re.sub(r"\b\d\w*\b", "0", re.sub(NAME, lambda m: m.group(0) if m.group(0) in
        "if else while for in let mut return match fn loop break".split() else "n", body)))


def twins():
    groups = collections.defaultdict(list)
    for path, line, name, _, body in functions():
        if body.count("\n") > 3:
            groups[shape(body)].append(f"{path}:{line}: {name}")
    return [" = ".join(group) for group in groups.values() if len(group) > 1]


def together():
    """Functions that take three parameters of one name and type with two more functions of their crate."""
    takers = collections.defaultdict(set)
    for path, line, name, parameters, _ in functions():
        named = sorted(re.sub(r"\s+", " ", p).strip() for p in re.split(r",(?![^<\[]*[>\]])", parameters) if ":" in p)
        for three in itertools.combinations(named, 3):
            takers[path.split("/")[1], three].add(f"{path}:{line}: {name}")
    return sorted(set().union(*[names for names in takers.values() if len(names) >= 3]))


def ladders():
    """`if .. { return false; }` before a last test, and comparisons word by word."""
    return [f"{path}:{line}: {name}" for path, line, name, _, body in functions() if
        len(re.findall(r"if [^{]*\{\s*return false;\s*\}", body)) >= 2]


POINTS = {
    "1a own enums": lambda: list(lines(r"^\s*(pub )?enum ")),
    "1b a flag beside a value": lambda: list(lines(rf"^\s+(pub )?{NAME}: bool,$")),
    "1c a number for none": lambda: list(comments(r"(one past|or 0 where|0 where (it|none|there)|, or where )")),
    "2 twins": twins,
    "3 loops by hand": lambda: list(lines(r"^\s*('\w+: )?(while|loop)\b")),
    "4a equality by hand": lambda: list(lines(r"fn (same|equal|stands_at|is_same)\w*")),
    "4b tests one below the other": ladders,
    "4c conversion and printing by hand": lambda: list(lines(r"fn (number|print\w*)\b")),
    "5 three parameters together": together,
    "6 a length beside a buffer": lambda: list(lines(rf"^\s+(pub )?(used|count|length|end|ends): (usize|u32|\[)")),
    "7 a match on which test or step": lambda: list(lines(r"match (\w+\.)?(sought|stage|step|kind|letters|side|order)\b")),
    "8 answers": lambda: [f"{path}: {len(re.findall('^pub ', open(path).read(), re.M))}" for path in
        sorted(glob.glob("crates/*/proofs/**/Answers.antt", recursive=True))],
}


def main():
    wanted = sys.argv[1] if len(sys.argv) > 1 else ""
    for title, places in POINTS.items():
        found = places()
        total = sum(int(place.rsplit(" ", 1)[1]) for place in found) if title.startswith("8") else len(found)
        print(f"{title}: {total}")
        if wanted and title.startswith(wanted):
            print("".join(f"    {place}\n" for place in found), end="")


main()
