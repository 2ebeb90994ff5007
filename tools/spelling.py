#!/usr/bin/env python3
"""Brings the names of this repository's definitions and lemmas to today's spelling: words in snake case, dashes only between two names.

usage: tools/spelling.py [--list]      at the top of the repository, once, right after the toolchain's port.py

A name is turned where it is defined in specs/ or proofs/ of a crate, or given there or in a source by `as`. Names from the code's own
text, of the kit, and goals that Rattle makes keep theirs. It stops, and writes nothing, where a new name is taken already.
"""

import os
import re
import sys

TOKEN = re.compile(r"[^\s(){}\[\],;.:λ\"«»|`=/]+(?:=[^\s(){}\[\],;.λ]+)?")
WORD = re.compile(r"[A-Za-z_][A-Za-z0-9_'\-₀-₉′·]*")
HUMP = re.compile(r"(?<=[a-z0-9])(?=[A-Z])")
GOAL = re.compile(r"^\s*(?:tie|lts|goal|contracts?)\b|^\s*\{M : Type 1\} → statement|^statement")
# Names that may fall together: an alias of a function's module and a definition of what the function answers.
ALIKE = [{"couple-line", "coupleLine"}, {"code-area", "codeArea"}]
# Where the rule would give a name that is taken.
SPECIAL = {
    "goes_on": "goes_on_lem",
    "edge_by": "edge_by_lem",
    "asked_by": "asked_by_lem",
    "pair_found": "pair_found_lem",
    "same_kind": "same_kind_lem",
    "same_sum": "same_sum_lem",
    "same_test": "same_test_lem",
    "is_stop": "is_stop_lem",
    "held-as": "held_as_lem",
    "malformed-form": "malformed_form_lem",
    "meter-exchanged": "meter_exchanged_lem",
    "writes-differ": "writes_differ_lem",
    "is-expression": "is_expression_lem",
    "text-of": "text_of_lem",
    "record·": "«record»",
    "couples·": "couple_count",
    "word-at": "word_at_lem",
}


def files(root):
    for top in ("crates", "docs", "tests", "examples", "bench"):
        for folder, dirs, names in os.walk(os.path.join(root, top)):
            dirs[:] = sorted(d for d in dirs if d not in ("out", "target"))
            for n in sorted(names):
                yield os.path.join(folder, n)


def plain(text):
    return re.sub(r"--[^\n]*", "", text)


HEAD = re.compile(r"[ \t]*(?:(?:abbrev|unfoldable|pub|record|data) )*")
NAMES = re.compile(r"[^\s(){}:,;\[\]λ=→.]+(?: [^\s(){}:,;\[\]λ=→.]+)*")
KEYWORDS = {"use", "let", "in", "where", "mod", "pub", "abbrev", "unfoldable", "unfolding", "record", "data", "module"}


def signatures(text):
    """The names that a proof text defines, each with the beginning of its type."""
    lines = text.split("\n")
    for i, line in enumerate(lines):
        m = NAMES.match(line, HEAD.match(line).end())
        if not m:
            continue
        rest = line[m.end() :]
        if not re.match(r"\s*(?:[({].*)?:(\s|$)", rest) and not (rest.strip() == "" and i + 1 < len(lines) and lines[i + 1].strip().startswith(": ")):
            continue
        kind = re.sub(r"^\s*:", "", rest)
        for n in m.group(0).split():
            if WORD.fullmatch(n) and n not in KEYWORDS:
                yield n, kind


def own_names(root):
    names, goals, code = set(), set(), set()
    for p in files(root):
        if p.endswith(".antt"):
            with open(p, encoding="utf-8") as f:
                text = plain(f.read())
            inner = re.search(r"/proofs/.+/[^/]+\.antt$", p)
            for n, kind in signatures(text):
                (goals if inner and GOAL.match(kind.strip()) else names).add(n)
            names.update(re.findall(r" as ([a-z][\w'-]*)", text))
        elif p.endswith(".rt"):
            with open(p, encoding="utf-8") as f:
                text = f.read()
            code.update(re.findall(r"\b(?:fn|let|let mut|mod|const|static) (\w+)", text))
            code.update(re.findall(r"(?m)(\w+)\s*:", text))
            names.update(re.findall(r" as ([a-z]\w*)(?=[,}])", text))
    return names, goals, code


def turned(name, names):
    if name in SPECIAL:
        return SPECIAL[name]
    if not re.match(r"[a-z_]", name) and "-" not in name:
        return name
    parts = name.split("-")
    parts = ["_".join(w[0].lower() + w[1:] for w in HUMP.split(p)) if p[:1].islower() else p for p in parts]
    return "_".join(parts).replace("·", "").replace("′", "'")


def main(argv):
    root = "."
    names, goals, code = own_names(root)
    turns = {}
    for n in sorted(names - code):
        new = turned(n, names)
        if new != n and n not in goals:
            turns[n] = new
    for n in sorted(turns):
        if "-" in n and any(m != n and new == turns[n] and {n, m} not in ALIKE for m, new in turns.items()):
            turns[n] += "_lem"
    used = {}
    for p in files(root):
        if p.endswith((".antt", ".rt")):
            with open(p, encoding="utf-8") as f:
                used[p] = set(WORD.findall(plain(f.read())))
    back, bad = {}, []
    for n, new in turns.items():
        if new in back and {n, back[new]} not in ALIKE:
            bad.append(f"{n} and {back[new]}: both would be {new}")
        back[new] = n
        if new in names and new not in turns and new not in code:
            bad.append(f"{n}: {new} is defined")
        for p, words in used.items():
            if n in words and new in words and new not in turns and p.endswith(".antt") and new not in code:
                bad.append(f"{n}: {new} stands in {p}")
    both = sorted(n for n in names & goals if turned(n, names) != n)
    if "--list" in argv:
        for n, new in turns.items():
            print(n, new)
        print("also goals:", " ".join(both))
    if bad:
        print("\n".join(bad), file=sys.stderr)
        return 1
    if "--list" in argv:
        return 0
    count = 0
    for p in files(root):
        if not p.endswith((".antt", ".rt", ".edit", ".md")):
            continue
        with open(p, encoding="utf-8") as f:
            old = f.read()

        def word(m):
            n = m.group(0)
            if n not in turns:
                return n
            if "-" in n and m.start() and old[m.start() - 1] == ".":
                before = re.search(r"([^\s(){}\[\],;]*)\.$", old[: m.start()]).group(1)
                if re.match(r"[a-z](\.|$)", before) or before == "":
                    return n
            return turns[n]

        new = WORD.sub(word, old)
        if new != old:
            count += 1
            with open(p, "w", encoding="utf-8") as f:
                f.write(new)
    print(f"spelling: {len(turns)} names in {count} files")
    return 0


if __name__ == "__main__":
    raise SystemExit(main(sys.argv[1:]))
