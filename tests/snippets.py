#!/usr/bin/env python3
"""Compares the code of README.md and docs/GUIDE.md with files that the gate or tests/run runs. The link before a block of code names
its file: each piece of the block, which blank lines or `..` part, stands in it, line by line, without regard to indentation. A block
of Rust has such a link; another one is compared if the text before it ends with one and a colon.

usage: tests/snippets.py --check     the status tells whether all of it is so
"""
import os
import re
import sys

TOP = os.path.dirname(os.path.dirname(os.path.abspath(__file__)))
PAGES = ["README.md", "docs/GUIDE.md"]


def stripped(text):
    return [line.strip() for line in text.splitlines() if line.strip()]


def read(path):
    with open(path, encoding="utf-8") as file:
        return file.read()


# Each block of code of a page, with its language and the text between it and the block or the heading before.
def blocks(text):
    before = ""
    for part in re.split(r"^( *```.*?^ *```)\n", text, flags=re.S | re.M):
        found = re.match(r" *```(\w*)\n(.*?)^ *```", part, re.S | re.M)
        if found:
            yield found[1], found[2], before
            before = ""
        else:
            before = re.split(r"^#+ .*$", part, flags=re.M)[-1]


# The file that the text before a block names, if it has to be compared.
def source(language, before):
    links = re.findall(r"\]\(([^)#:]+)\)", before)
    if language == "rust":
        return links[-1] if links else ""
    if language == "sh":
        return None
    sentence = re.split(r"(?<=[.;]) ", before.strip())[-1]
    near = re.findall(r"\]\(([^)#:]+)\)", sentence)
    return near[-1] if near and sentence.endswith(":") else None


# Whether lines stand in others, one behind the other.
def stands(piece, lines):
    return any(lines[place : place + len(piece)] == piece for place in range(len(lines)))


# What of a page is not as its sources have it.
def faults(page):
    compared = 0
    for language, code, before in blocks(read(os.path.join(TOP, page))):
        target = source(language, before)
        if target is None:
            continue
        path = os.path.normpath(os.path.join(TOP, os.path.dirname(page), target))
        if not os.path.isfile(path):
            yield f"a block without its file: {code.splitlines()[0]}"
            continue
        lines = stripped(read(path))
        compared += 1
        for piece in re.split(r"\n(?:\s*|\.\.)\n", code):
            if not stands(stripped(piece), lines):
                yield f"not in {target}: {stripped(piece)[0]}"
    if not compared:
        yield "no block is compared"


def main():
    if sys.argv[1:] != ["--check"]:
        sys.exit(__doc__)
    found = [(page, fault) for page in PAGES for fault in faults(page)]
    for page, fault in found:
        print(f"WRONG {page}: {fault}")
    return 1 if found else 0


if __name__ == "__main__":
    sys.exit(main())
