#!/usr/bin/env python3
"""Respells the repository's own definitions, lemmas and modules of specs/ and proofs/: words in snake case, types and
modules in camel case. Run once, at the top, after the kit's port.py: python3 tools/respell.py

Functions, types and files of src/ keep their names, and so do strings, inputs, outputs and names for C. It prints the
names that fall together with one that is there; `--dry` prints alone. APART keeps those apart that one file would have
both of."""

import os
import re
import subprocess
import sys

CAMEL = re.compile(r"(?<![A-Za-z0-9'])(?!b'[A-Z]')[a-z][a-z0-9']*[A-Z][A-Za-z0-9']*")
WORD = re.compile(r"[^\s(){}.,;\"`@⟨⟩\[\]]+")


def snake(name):
    return re.sub(r"(?<=[a-z0-9'])([A-Z])", r"_\1", name).lower()


def files(top, ends):
    for folder, dirs, names in os.walk(top):
        dirs[:] = sorted(d for d in dirs if d not in ("out", ".git", "target"))
        for n in sorted(names):
            if n.endswith(ends):
                yield os.path.join(folder, n)


def read(path):
    with open(path, encoding="utf-8") as f:
        return f.read()


def strip(text):
    return "\n".join(l.split("-- ")[0] for l in text.split("\n"))


def types(paths):
    """The names of definitions that are types and begin in lower case."""
    found = set()
    for p in paths:
        for m in re.finditer(r"^[ ]*(?:(?:pub|abbrev|unfoldable) )*([a-z][^\s:({]*) ?:([^\n]*(?:\n[ ]+[→(][^\n]*)*)", read(p), re.M):
            if re.search(r"(^|→ )\s*Type \d+\s*$", m.group(2)):
                found.add(m.group(1))
    return found - LOCAL


# Names of types that stand inside one proof stay.
LOCAL = {"there", "standing"}

# Lemmas and locals that would fall together with a definition.
APART = {
    "crates/book/specs/laws/Steps.antt": ["line_taken"],
    "crates/definitions/specs/laws/books/Books.antt": ["left_out"],
    "crates/definitions/specs/laws/books/LeftOut.antt": ["left_out"],
    "crates/definitions/specs/laws/books/WrittenRoots.antt": ["left_out"],
    "crates/definitions/specs/laws/text/Reading.antt": ["line_read"],
    "crates/definitions/specs/laws/trees/Walks.antt": ["at_leaf"],
    "crates/lines/specs/laws/Tables.antt": ["form_in"],
    "crates/plainform/specs/laws/Numbering.antt": ["all_words"],
}


def fields(paths):
    """The fields of records whose names have a dash."""
    found = set()
    for p in paths:
        depth = None
        for line in strip(read(p)).split("\n"):
            m = re.match(r"^(\s*)(?:pub )?record .*where", line)
            if m:
                depth = len(m.group(1))
            elif depth is not None and line.strip():
                if len(line) - len(line.lstrip()) <= depth:
                    depth = None
                    continue
                m = re.match(r"^\s+(?:pub )?([^\s:]+) :", line)
                if m and "-" in m.group(1):
                    found.add(m.group(1))
    return found


def main():
    antt = list(files("crates", ".antt"))
    kinds = types(antt)
    print("types:", sorted(kinds))
    upper = {k: re.sub(r"(?:^|_)([a-z])", lambda m: m.group(1).upper(), snake(k)) for k in kinds}
    known = set()
    for p in antt:
        known |= set(WORD.findall(strip(read(p))))

    after = {CAMEL.sub(lambda m: snake(m.group(0)), w) for w in known}
    dashed = {f for f in fields(antt) if f.replace("-", "_") not in after}
    print("fields:", sorted(dashed))

    def respell_word(w):
        def part(m):
            return upper.get(m.group(0), snake(m.group(0)))
        w = CAMEL.sub(part, w)
        return w

    def respell_types(w):
        parts = re.split(r"(-|→|↔)", w)
        w = "".join(upper.get(s, s) for s in parts)
        return w.replace("-", "_") if w in dashed else w

    def code(t):
        out = []
        for line in t.split("\n"):
            i = line.find("-- ")
            body, note = (line, "") if i < 0 else (line[:i], line[i:])
            body = re.sub(r"[^\s(){}.,;\"`@⟨⟩\[\]]+", lambda m: respell_types(respell_word(m.group(0))), body)
            out.append(body + CAMEL.sub(lambda m: upper.get(m.group(0), snake(m.group(0))), note))
        return "\n".join(out)

    for w in sorted(known):
        new = respell_types(respell_word(w))
        if new != w and new in known:
            print(f"fall together: {w} {new}")
    folders = {}
    for c in sorted(os.listdir("crates")):
        for top in ("specs",):
            root = os.path.join("crates", c, top)
            for p in files(root, ".antt"):
                for piece in os.path.relpath(p, root)[:-5].split(os.sep):
                    if piece[0].islower():
                        folders[piece] = "".join(x.capitalize() for x in piece.split("_"))
    print("modules:", folders)
    if "--dry" in sys.argv:
        return 0

    def modules(t):
        def path(m):
            return m.group(1) + "".join("." + folders.get(x, x) for x in m.group(2).split(".")[1:])
        t = re.sub(r"(Rattle\.\w+\.specs)((?:\.[\w-]+)+)", path, t)
        return re.sub(r"^((?:pub )?mod )(\w+)$", lambda m: m.group(1) + folders.get(m.group(2), m.group(2)), t, flags=re.M)

    def paths(t):
        return re.sub(r"(specs)((?:/[\w-]+)+)", lambda m: m.group(1) + "".join("/" + folders.get(x, x) for x in m.group(2).split("/")[1:]), t)

    for p in antt:
        t = read(p)
        for name in APART.get(p, []):
            t = re.sub(r"(?<![\w.'◌-])" + name + r"(?![\w'-])", name + "_lem", t)
        new = modules(code(t))
        if new != t:
            open(p, "w", encoding="utf-8").write(new)
    for p in list(files("crates", (".rt", ".edit"))):
        t = read(p)
        pieces = re.split(r'("(?:[^"\\\n]|\\.)*")', t)
        for i in range(0, len(pieces), 2):
            new = CAMEL.sub(lambda m: upper.get(m.group(0), snake(m.group(0))), pieces[i])
            for k, v in upper.items():
                if k.islower():
                    new = re.sub(r"(?<![\w'.-])" + k + r"(?= [a-z(])(?=[^\n]*[})×≡])", v, new) if "ghost" in new else new
            pieces[i] = modules(new)
        new = paths("".join(pieces)) if p.endswith(".edit") else "".join(pieces)
        if new != t:
            open(p, "w", encoding="utf-8").write(new)
    for p in ["README.md", *files("docs", ".md")]:
        t = read(p)
        new = paths(re.sub(r"`[^`\n]*`", lambda m: CAMEL.sub(lambda k: upper.get(k.group(0), snake(k.group(0))), m.group(0)), t))
        new = re.sub(r"(Rattle\.\w+\.specs[\w.]*)", lambda m: modules(m.group(1)), new)
        if new != t:
            open(p, "w", encoding="utf-8").write(new)
    for c in sorted(os.listdir("crates")):
        root = os.path.join("crates", c, "specs")
        for folder, dirs, names in os.walk(root, topdown=False):
            for n in names + dirs:
                base = n[:-5] if n.endswith(".antt") else n
                if base in folders:
                    subprocess.run(["git", "mv", os.path.join(folder, n), os.path.join(folder, folders[base] + n[len(base):])], check=True)
    return 0


if __name__ == "__main__":
    raise SystemExit(main())
