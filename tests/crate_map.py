#!/usr/bin/env python3
"""Draws the crates of crates.txt into docs/ARCHITECTURE.md, between its two marks: as text and as a graph, by families, each crate
with the crates right below it. A crate is left out there if another one that is listed stands on it.

usage: tests/crate_map.py [--check]     with --check nothing is written, and the status tells whether the map is current, and whether
                                        the tables behind it have a row of at most 15 words for each crate, in the order of crates.txt
"""
import os
import re
import sys
from itertools import zip_longest

TOP = os.path.dirname(os.path.dirname(os.path.abspath(__file__)))
OUT = os.path.join(TOP, "docs", "ARCHITECTURE.md")
BEGIN = "<!-- The map begins. tests/crate_map.py makes it of crates.txt. -->\n"
END = "<!-- The map ends. -->\n"
TABLES = "## The crates\n"
WORDS = 15


# The families in order, each by its `#` line in crates.txt: what it is, and its crates with the crates of this repository that each lists.
def families():
    found = []
    with open(os.path.join(TOP, "crates.txt"), encoding="utf-8") as file:
        for line in filter(None, map(str.strip, file)):
            if line.startswith("#"):
                found.append((line[1:].strip(), {}))
            else:
                name, listed = line.split(":", 1)
                found[-1][1][name.split()[0]] = [other for other in listed.split() if other.startswith("rtc")]
    return found


# Every crate that a crate stands on.
def reached(listed):
    below = {}
    for name, others in listed.items():
        above = [other for other in others if other not in below]
        if above:
            sys.exit(f"crates.txt has {name} before {above[0]}, on which it stands")
        below[name] = set(others).union(*(below[other] for other in others))
    return below


# The crates right below each: those listed that are below no other one listed.
def reduction(listed):
    below = reached(listed)
    return {name: [other for other in others if not any(other in below[third] for third in others)] for name, others in listed.items()}


def heading(family):
    return family[0].upper() + family[1:]


def text_map(found, edges):
    width = max(map(len, edges)) + 3
    lines = []
    for family, crates in found:
        lines += ["", heading(family)]
        lines += ["  " + f"{name:{width}}{' '.join(edges[name])}".rstrip() for name in crates]
    return "\n".join(["```text", *lines[1:], "```", ""])


def graph(found, edges):
    lines = ["```mermaid", "graph TD"]
    for place, (family, crates) in enumerate(found):
        lines += [f'  subgraph family_{place}["{heading(family)}"]', *(f"    {name}" for name in crates), "  end"]
    lines += [f"  {name} --> {other}" for name in edges for other in edges[name]]
    return "\n".join([*lines, "```", ""])


def drawn(found):
    listed = {name: others for _, crates in found for name, others in crates.items()}
    edges = reduction(listed)
    return f"\n{text_map(found, edges)}\n{graph(found, edges)}\n"


# The headings of families and the names of crates, in order, as crates.txt has them.
def expected(found):
    return [entry for family, crates in found for entry in (heading(family), *crates)]


# The headings and the rows of the tables, in order: what each names, and what a row says.
def entries(text):
    section = text.partition(TABLES)[2].partition("\n## ")[0]
    for heading_text, name, told in re.findall(r"^(?:### (.+)|\| `(rtc\w*)` \| (.*) \|)$", section, re.M):
        yield heading_text or name, told


# What is wrong in the tables.
def faults(found, text):
    told = list(entries(text))
    names, wanted = [name for name, _ in told], expected(found)
    differs = [place for place, pair in enumerate(zip_longest(names, wanted)) if len(set(pair)) > 1]
    if differs:
        name, due = (dict(enumerate(those)).get(differs[0], "missing") for those in (names, wanted))
        yield f"entry {differs[0] + 1} of its tables is {name}; by crates.txt it is {due}"
    for name, words in told:
        if len(words.split()) > WORDS:
            yield f"the row of {name} has more than {WORDS} words"


def main():
    if sys.argv[1:] not in ([], ["--check"]):
        sys.exit(__doc__)
    found = families()
    with open(OUT, encoding="utf-8") as file:
        text = file.read()
    head, _, rest = text.partition(BEGIN)
    made = head + BEGIN + drawn(found) + END + rest.partition(END)[2]
    wrong = list(faults(found, text))
    for fault in wrong:
        print(f"docs/ARCHITECTURE.md: {fault}")
    if sys.argv[1:]:
        return 1 if wrong or made != text else 0
    with open(OUT, "w", encoding="utf-8") as file:
        file.write(made)
    return 1 if wrong else 0


if __name__ == "__main__":
    sys.exit(main())
