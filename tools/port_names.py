#!/usr/bin/env python3
"""Turns the repository's own names to today's spelling: words in snake case.

usage: tools/port_names.py [FOLDER]     once, at the top of a repository that /opt/rattle/port/port.py has turned

tools/port_names.tsv has a row for each name: old, a tab, new. Some names would fall together with another name of
their file, and get one of their own below. In code each whole word is turned; in comments and pages a word in camel
case, and a word with a dash only between backquotes or square brackets, since it may be English.
"""

import os
import re
import sys

HERE = os.path.dirname(os.path.realpath(__file__))
WORD = re.compile(r"(?<![A-Za-z0-9_'\-])[A-Za-z][A-Za-z0-9_'\-]*")
MARKED = re.compile(r"`[^`\n]*`|\[[^\]\n]*\]")

# Names that would fall together with another name that their file uses: file, old, new.
OWN = [
    ("search_theory/proofs/Listing.antt", "carried_on", "carried_on_lem"),
    ("solver/proofs/Listing.antt", "carried_on", "carried_on_lem"),
    ("solver/proofs/Begun.antt", "carried_on", "carried_on_lem"),
    ("demands/proofs/RequestE1.antt", "listing.carried_on", "listing.carried_on_lem"),
    ("dimacs_theory/proofs/Runs.antt", "is_digit", "is_digit_lem"),
    ("dimacs_theory/proofs/Pieces.antt", "is_digit", "is_digit_lem"),
    ("dimacs_theory/proofs/Numbers.antt", "is_digit", "is_digit_lem"),
    ("search_theory/proofs/Choices.antt", "is_false", "is_false_lem"),
    ("search_theory/proofs/Reasons.antt", "is_false", "is_false_lem"),
    ("search_theory/proofs/Budgets.antt", "goes_on", "goes_on_lem"),
    ("search_theory/proofs/Listing.antt", "goes_on", "goes_on_lem"),
    ("solver/proofs/Listing.antt", "goes_on", "goes_on_lem"),
    ("demands/proofs/RequestE2.antt", "budgets.goes_on", "budgets.goes_on_lem"),
    ("encoder/proofs/Counts.antt", "from_one", "from_one_lem"),
    ("encoder_size/proofs/Cells.antt", "from_one", "from_one_lem"),
    ("encoder_cells/proofs/Cells.antt", "from_one", "from_one_lem"),
    ("search/proofs/BudgetSums.antt", "one_more", "one_more_lem"),
    ("search_theory/proofs/ListedSteps.antt", "one_more", "one_more_lem"),
    ("solver/proofs/Begun.antt", "one_solution", "one_solution_lem"),
    ("encoder_theory/proofs/Read.antt", "one_way :", "one_way_lem :"),
    ("encoder_theory/proofs/Read.antt", "one_way d x y", "one_way_lem d x y"),
    ("encoder_theory/proofs/Read.antt", "one_way = either_way", "one_way_lem = either_way"),
    ("sheet/proofs/Theorems.antt", "is_open", "is_open_lem"),
    ("encoder_numbers/proofs/Numbers.antt", "is_open", "is_open_lem"),
    ("rules_theory/proofs/Shaded.antt", "is_open", "codes_open"),
    ("rules_theory/proofs/Shaded.antt", "is-clue", "codes_clue"),
    ("rules_theory/proofs/Shaded.antt", "is-shaded", "codes_shaded"),
    ("rules_theory/proofs/RecordKinds.antt", "is_open", "codes_open"),
    ("rules_theory/proofs/RecordKinds.antt", "is-clue", "codes_clue"),
    ("rules_theory/proofs/RecordKinds.antt", "is-shaded", "codes_shaded"),
    ("rules_theory/specs/RecordKinds.antt", "is_open", "codes_open"),
    ("rules_theory/specs/RecordKinds.antt", "is-clue", "codes_clue"),
    ("rules_theory/specs/RecordKinds.antt", "is-shaded", "codes_shaded"),
]


def whole(name):
    return re.compile(r"(?<![A-Za-z0-9_'\-])" + re.escape(name) + r"(?![A-Za-z0-9_'\-])")


def table():
    with open(os.path.join(HERE, "port_names.tsv"), encoding="utf-8") as f:
        return dict(line.rstrip("\n").split("\t") for line in f)


def code(text, names):
    return WORD.sub(lambda m: names.get(m.group(0), m.group(0)), text)


def prose(text, names):
    camel = {o: n for o, n in names.items() if "-" not in o}
    text = MARKED.sub(lambda m: code(m.group(0), names), text)
    return code(text, camel)


def with_comments(text, names, mark):
    lines = []
    for line in text.split("\n"):
        at = re.search(r"(?<![^\s(){}.;,])" + mark, line)
        i = at.start() if at else len(line)
        lines.append(code(line[:i], names) + prose(line[i:], names))
    return "\n".join(lines)


def turn(path, inside, names):
    with open(path, encoding="utf-8") as f:
        old = f.read()
    new = old
    for file, a, b in OWN:
        if inside == file:
            new = whole(a).sub(b, new)
    if path.endswith(".antt"):
        new = with_comments(new, names, "--")
    elif path.endswith(".rt"):
        new = with_comments(new, names, "//")
    elif path.endswith(".edit"):
        new = with_comments(new, names, "#")
    else:
        new = prose(new, names)
    if new != old:
        with open(path, "w", encoding="utf-8") as f:
            f.write(new)
    return new != old


def main(top):
    names, n = table(), 0
    for below in ("crates", "docs", "."):
        for folder, dirs, files in os.walk(os.path.join(top, below)):
            dirs[:] = sorted(d for d in dirs if d not in ("out", ".git")) if below != "." else []
            for f in sorted(files):
                path = os.path.join(folder, f)
                inside = os.path.relpath(path, os.path.join(top, "crates"))
                if f.endswith((".antt", ".rt", ".edit", ".md")):
                    n += turn(path, inside, names)
    print(f"{n} files changed")


if __name__ == "__main__":
    main(sys.argv[1] if len(sys.argv) > 1 else ".")
