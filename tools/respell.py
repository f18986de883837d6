#!/usr/bin/env python3
"""Brings this repository's own definitions and lemmas to the library's spelling.

usage: python3 tools/respell.py [--dry]      at the top of the repository, once, after the kit's port.py

Types and modules are in upper camel case, all else in snake case: `denialNumber` becomes `denial_number`, `run-all` becomes `run_all`.
A name of Rattle source keeps its spelling, and so does a name that Rattle makes (a goal, an answer) or that a library gives.
"""

import collections
import os
import re
import sys

# Where two names would fall together, or a name would hide another.
APART = {
    "by-A": "silent_by_a",
    "by-B": "silent_by_b",
    "first-from": "first_from_lem",
    "line-says": "line_says_lem",
    "none-lost": "none_lost_lem",
    "put-answer": "put_answer_lem",
    "put-left": "put_left_lem",
    "with-records": "with_records_lem",
}

# Constructors, in the files that see them; and what would then hide them.
CONSTRUCTORS = {"Same": "same", "Added": "added", "Became": "became", "Removed": "removed"}
TABLES = re.compile(r"use Rattle\.tables\.specs\.Tables\.\{[^}]*\b(?:Change|Same|Added|Became|Removed)\b")
BY_FILE = {
    "crates/tables/specs/Tables.antt": CONSTRUCTORS,
    "crates/tables/proofs/Tables.antt": {"same": "same_number"},
    "crates/agreement/proofs/Lines.antt": {"same": "same_number"},
    "crates/agreement/proofs/Order.antt": {"same": "same_number"},
    "crates/agreement/proofs/Spots.antt": {"W": "words_with"},
    "crates/agreement/specs/Edges.antt": {"Run": "run", "Line": "line", "Outcomes": "outcomes", "Reads": "reads"},
}

WORD = re.compile(r"""b?"(?:\\.|[^"\\])*"|b'(?:\\.|[^'\\])'|--.*|//.*|(?<![\w'′·\-])[A-Za-z_](?:[\w'·]|-(?=[\w']))*""")
DECLARED = re.compile(r"^\s*(?:(?:abbrev|unfoldable|pattern) )*(?:pub )?([A-Za-z_][^\s:(){}.;,]*)(?: \{[^}]*\})? : (.*)$")
USE = re.compile(r"^\s*(?:ghost )?(?:pub )?use ([\w.·]+?)\.\{([^}]*)\}")
PLAIN = re.compile(r"(?<![\w'.\-])[A-Za-z_](?:[\w']|-(?=[\w']))*")
SMALL = set(CONSTRUCTORS) | {w for names in BY_FILE.values() for w in names}
CAMEL = re.compile(r"^_?[a-z][a-z0-9_']*[A-Z]")


def snake(name):
    if name in APART:
        return APART[name]
    name = re.sub(r"(?<=[a-z0-9'])(?=[A-Z])|(?<=[A-Z])(?=[A-Z][a-z])", "_", name)
    return name.replace("-", "_").lower()


def files(root):
    for folder, dirs, names in os.walk(os.path.join(root, "crates")):
        dirs[:] = sorted(d for d in dirs if d != "out")
        for n in sorted(names):
            yield os.path.join(folder, n)


def read(path):
    with open(path, encoding="utf-8") as f:
        return f.read()


def own(path, crates):
    parts = path.split(".")
    return parts[0] == "Rattle" and len(parts) > 1 and parts[1] in crates


def main(dry):
    root = os.getcwd()
    crates = set(os.listdir(os.path.join(root, "crates")))
    texts = {p: read(p) for p in files(root) if p.endswith((".antt", ".rt", ".edit"))}
    declared = collections.defaultdict(set)
    for p, t in texts.items():
        if p.endswith(".antt"):
            for line in t.splitlines():
                m = DECLARED.match(line)
                if m and not m.group(2).startswith("goal."):
                    declared[m.group(1)].add(os.path.relpath(p, root))
    own_dashed = {n for n in declared if "-" in n}
    turned = collections.defaultdict(set)
    kept = collections.defaultdict(set)
    out = {}
    for p, t in texts.items():
        foreign = set()
        for line in t.splitlines():
            m = USE.match(line)
            if m and not own(m.group(1), crates):
                foreign |= {w.split(" as ")[-1].strip() for w in m.group(2).split(",")}
        answers = {m.group(1) for m in map(DECLARED.match, t.splitlines()) if m and m.group(2).startswith("goal.")}

        here = dict(CONSTRUCTORS) if TABLES.search(t) else {}
        here.update(BY_FILE.get(os.path.relpath(p, root), {}))

        def turn(m):
            w = m.group(0)
            if w[0] in "-/\"" or w.startswith(("b'", 'b"')):
                return w
            if w in here and t[m.start() - 1] != ".":
                turned[w].add(os.path.relpath(p, root))
                return here[w]
            if w in foreign or w in answers:
                if CAMEL.match(w) or w in own_dashed:
                    kept[w].add(os.path.relpath(p, root))
                return w
            if ("-" not in w and CAMEL.match(w)) or w in own_dashed:
                turned[w].add(os.path.relpath(p, root))
                return snake(w)
            return w

        out[p] = WORD.sub(turn, t)
    for p in [os.path.join(root, "README.md")] + [os.path.join(root, "docs", d) for d in sorted(os.listdir(os.path.join(root, "docs"))) if d.endswith(".md")]:
        t = read(p)
        texts[p] = t
        out[p] = re.sub(r"`[^`\n]*`", lambda m: PLAIN.sub(lambda w: snake(w.group(0)) if w.group(0) in turned and w.group(0) not in SMALL else w.group(0), m.group(0)), t)
    together = collections.defaultdict(set)
    for w in set(turned) - SMALL:
        together[snake(w)].add(w)
    for n in sorted(together):
        also = declared.get(n, set()) if n not in together[n] else set()
        if len(together[n]) > 1 or also:
            print("together:", n, {w: sorted(declared.get(w, turned[w]))[:3] for w in together[n]}, "stands:", sorted(also)[:3])
    for w in sorted(kept):
        print("kept:", w, sorted(kept[w])[:3])
    undeclared = sorted(w for w in turned if w not in declared)
    print("not declared:", undeclared)
    n = 0
    for p in out:
        if out[p] != texts[p]:
            n += 1
            if not dry:
                with open(p, "w", encoding="utf-8") as f:
                    f.write(out[p])
    print(f"{len(turned)} names turned in {n} files")


if __name__ == "__main__":
    main("--dry" in sys.argv[1:])
