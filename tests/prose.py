#!/usr/bin/env python3
"""Counts the words of the README, of docs/ and of the crates' READMEs, and the lengths of their sentences. Blocks of code, targets of
links, pages made by scripts and, in a crate's README, tables of claims, definitions and examples (those with a column in CLAIMS) are
not counted; code within a line is one word. The mean is over paragraphs and items of lists; the longest sentence may also stand in a
cell of a table.

usage: tests/prose.py [--check]     writes a row for each page; with --check only what passes a limit, which the status tells too
"""
import glob
import os
import re
import sys

TOP = os.path.dirname(os.path.dirname(os.path.abspath(__file__)))
README_WORDS, DOCS_WORDS, CRATE_WORDS = 900, 15_000, 250
MEAN_SENTENCE, SENTENCE = 25, 40
MADE = ["docs/PROMISES.md", "docs/INTEROP.md", "docs/api/"]
CLAIMS = ("Claim", "Clause", "Call", "Law", "Definition", "Subject")


# A text without blocks of code, comments, and targets of links. Other code is one word: what stands in it ends no sentence and no cell.
def bare(text):
    text = re.sub(r"^ *```.*?^ *```", "\n", text, flags=re.S | re.M)
    text = re.sub(r"<!--.*?-->", "", text, flags=re.S)
    return re.sub(r"!?\[([^]]*)\]\([^)]*\)", r"\1", re.sub(r"`[^`\n]*`", "code", text))


# The blocks of a text: each a heading, a paragraph, an item or a row with its cells.
def blocks(text):
    kind, lines = "", []
    for line in bare(text).splitlines() + [""]:
        item = re.match(r" *(?:[-*]|\d+\.) +", line)
        starts = "heading" if line.startswith("#") else "row" if line.lstrip().startswith("|") else "item" if item else ""
        if lines and (starts or not line.strip()):
            yield kind, [" ".join(lines)]
            kind, lines = "", []
        if starts == "row":
            yield "row", [cell.strip() for cell in re.split(r"(?<!\\)\|", line.strip().strip("|"))]
        elif starts == "heading":
            yield "heading", [line.lstrip("# ")]
        elif line.strip():
            kind = kind or starts or "paragraph"
            lines.append(line[item.end():] if item else line.strip())


# A row of dashes parts the names of columns from the rows of a table.
def is_rule(cells):
    return all(re.fullmatch(r":?-+:?", cell) for cell in cells)


# The blocks that count: without rules of tables and, if asked for, without tables of claims.
def counted(text, claims_too):
    listed = list(blocks(text))
    within = False
    for place, (kind, cells) in enumerate(listed):
        if kind != "row":
            within = False
        elif place + 1 < len(listed) and listed[place + 1][0] == "row" and is_rule(listed[place + 1][1]):
            within = not claims_too and any(cell in CLAIMS for cell in cells)
        if not within and not (kind == "row" and is_rule(cells)):
            yield kind, cells


def words(text):
    return [word for word in text.split() if re.search(r"\w", word)]


def sentences(text):
    return [len(words(part)) for part in re.split(r"(?<=[.!?:])\s+", text) if words(part)]


# The words of a page, its mean and its longest sentence.
def measured(path, claims_too=True):
    with open(path, encoding="utf-8") as file:
        text = file.read()
    total = sum(len(words(cell)) for _, cells in counted(text, claims_too) for cell in cells)
    every = [(kind, length) for kind, cells in counted(text, True) for cell in cells for length in sentences(cell)]
    prose = [length for kind, length in every if kind in ("paragraph", "item")]
    return total, sum(prose) / max(1, len(prose)), max([length for _, length in every], default=0)


def pages():
    listed = [os.path.join(TOP, "README.md")]
    listed += sorted(glob.glob(os.path.join(TOP, "docs", "**", "*.md"), recursive=True))
    return [path for path in listed if not os.path.relpath(path, TOP).startswith(tuple(MADE))]


# What passes a limit, and a row for each page.
def results():
    rows, wrong, docs = [], [], 0
    crates = sorted(glob.glob(os.path.join(TOP, "crates", "*", "README.md")))
    for path in pages() + crates:
        name, is_crate = os.path.relpath(path, TOP), path in crates
        total, mean, longest = measured(path, not is_crate)
        rows.append(f"{total:6} {mean:5.1f} {longest:3}  {name}")
        docs += total if name.startswith("docs/") else 0
        limit = CRATE_WORDS if is_crate else README_WORDS if name == "README.md" else DOCS_WORDS
        if total > limit:
            wrong.append(f"{name}: {total} words, and not at most {limit}")
        if mean > MEAN_SENTENCE or longest >= SENTENCE:
            wrong.append(f"{name}: a mean sentence of {mean:.1f} words, the longest of {longest}")
    rows.append(f"{docs:6}            docs/ in all")
    if docs > DOCS_WORDS:
        wrong.append(f"docs/: {docs} words in all, and not at most {DOCS_WORDS}")
    return rows, wrong


def main():
    check = sys.argv[1:] == ["--check"]
    if sys.argv[1:] and not check:
        sys.exit(__doc__)
    rows, wrong = results()
    for line in rows if not check else []:
        print(line)
    for what in wrong:
        print(f"WRONG {what}")
    return 1 if wrong else 0


if __name__ == "__main__":
    sys.exit(main())
