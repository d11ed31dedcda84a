#!/usr/bin/env python3
"""Respells the repository's own definitions and lemmas: words in snake case, types and modules in camel case.

usage: python3 tools/port_names.py      at the top of the repository, once, right after the toolchain's script that turned the older spelling

Renamed is each name that a file of specs/ or a file of lemmas in proofs/ declares (a definition, a lemma, a record, a
field, a constructor, a ruleset), in every .antt file, in every .rt file and in every must-fail edit. Functions, types and strings
of src/ keep theirs, and so do the names of goals, which the toolchain makes.
"""

import os
import re
import sys

DELIMITERS = r"\s(){}\[\],;.\"`"
TOKEN = re.compile(rf"[^{DELIMITERS}]+")
DECLARED = re.compile(rf"^\s*(?:(?:pub|abbrev|unfoldable|package) )*([^{DELIMITERS}:]+)((?: [^{DELIMITERS}:]+)*) :(?: |$)")
NAMED = re.compile(rf"^\s*(?:(?:pub|abbrev|unfoldable|package) )*(?:record|data|ruleset) ([^{DELIMITERS}:]+)")
GOALS = ("Answers.antt", "Invariants.antt", "Proof.antt")

# names that would fall together with another name of the repository, and what they are called instead
APART = {
    "next-ticket": "ticket_of_next",
    "worked-courses": "worked_courses_lem",
    "worked-grids": "worked_grids_lem",
}

# names of functions of src/ that a definition may share, since a clause reads no function
SHARED = {"children_in", "integral_of", "level_sum", "numeral_value", "point_at", "sample_of", "state_at"}


def files(*endings):
    for folder, folders, names in os.walk("crates"):
        folders[:] = sorted(f for f in folders if f != "out")
        for name in sorted(names):
            if name.endswith(endings):
                yield os.path.join(folder, name)


def read(path):
    with open(path, encoding="utf-8") as f:
        return f.read()


def spelled(name):
    """A type's name in camel case, any other in snake case."""
    name = name.replace("′", "'").replace("sumℕ", "sum_ℕ")
    if name[0].isupper():
        return "".join(part[:1].upper() + part[1:] for part in name.split("-"))
    name = re.sub(r"(?<=[a-z0-9])([A-Z])", lambda m: "_" + m.group(1).lower(), name)
    return re.sub(r"(?<=[^\s])-(?=[^\s])", "_", name)


def declared():
    own = set()
    for path in files(".antt"):
        if path.endswith(GOALS):
            continue
        for line in read(path).splitlines():
            line = line.split("--")[0]
            m = NAMED.match(line)
            if m:
                own.add(m.group(1))
                continue
            m = DECLARED.match(line)
            if m:
                own.update([m.group(1)] + m.group(2).split())
    return own


def main():
    own = declared()
    names = {n: APART.get(n, spelled(n)) for n in own if spelled(n) != n}
    seen = {}
    for path in files(".antt", ".rt"):
        for m in TOKEN.finditer(read(path)):
            seen.setdefault(m.group(0), path)
    wrong = 0
    taken = {}
    for old, new in sorted(names.items()):
        if new in taken or new in seen and new not in SHARED:
            wrong += 1
            print(f"{old}: {new} is there already, in {seen.get(new, taken.get(new))}")
        taken[new] = old
    if wrong:
        return 1
    turned = 0
    for path in files(".antt", ".rt", ".edit"):
        text = read(path)
        new = TOKEN.sub(lambda m: names.get(m.group(0), m.group(0)), text)
        if new != text:
            with open(path, "w", encoding="utf-8") as f:
                f.write(new)
            turned += 1
    print(f"{len(names)} names in {turned} files")
    return 0


if __name__ == "__main__":
    sys.exit(main())
