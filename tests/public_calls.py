#!/usr/bin/env python3
"""Writes docs/api/CALLS.md: each call that tests/data/public_calls.txt lists, by type, with where it is and whether it has the listed
signature.

usage: tests/public_calls.py [--check]     with --check nothing is written, and the status tells whether the page is current, and whether
                                           each listed call is there with its signature, or with a row of docs/DIFFERENCES.md in its place,
                                           and each public call of a listed type is listed
"""
import os
import re
import sys

import api_pages
from api_pages import TOP, items_of, read, sources

LIST = os.path.join(TOP, "tests", "data", "public_calls.txt")
DIFFERENCES = os.path.join(TOP, "docs", "DIFFERENCES.md")
OUT = os.path.join(TOP, "docs", "api", "CALLS.md")
HEAD = """# Calls by type

Each call that programs may rely on, by type, made by `tests/public_calls.py` from `tests/data/public_calls.txt` and the sources. A call leads
to its contract.

| Signature | What it says |
|---|---|
| as listed | The source has the signature that is listed, names of parameters and lifetimes aside |
| a link | It has another signature or name, and [DIFFERENCES.md](../DIFFERENCES.md) says why |
| further | The call is not on the list: layers above, tests or proofs use it |
"""


# The types of the list, in order: name, crate if it is given, and lines.
def listed():
    found = []
    for line in read(LIST).split("\n"):
        if not line.strip() or line.startswith("#"):
            continue
        if line.startswith(" "):
            found[-1][2].append(line.strip())
        else:
            name, *crate = line.split()
            found.append((name, crate[0] if crate else None, []))
    return found


# Each public call of the sources: crate, file, type or `Calls`, name, and its signature up to the first clause.
def calls():
    with open(os.path.join(TOP, "crates.txt"), encoding="utf-8") as file:
        crates = [line.split(":")[0] for line in file if line.strip() and not line.startswith("#")]
    for crate in crates:
        folder = os.path.join(TOP, "crates", crate)
        for path in sources(crate):
            place = os.path.relpath(path, folder)
            for owner, kind, name, _, text in items_of(path):
                if kind == "fn":
                    yield crate, place, owner or "Calls", name, signature(text)
            for name in re.findall(r"^impl(?:<.*>)? TryCopy for (\w+)", read(path), re.M):
                yield crate, place, name, "copy", None


def signature(lines):
    taken = []
    for line in lines:
        clause = re.search(r"(^|\s)(requires|ensures|decreases|where)\b", line)
        taken.append(line[: clause.start()] if clause else line)
        if clause:
            break
    return " ".join(part.strip() for part in taken)


# The parts of a text between commas that are in no bracket.
def split(text):
    parts, depth = [""], 0
    for letter in text.replace("->", "\0"):
        depth += (letter in "(<[") - (letter in ")>]")
        if letter == "," and depth == 0:
            parts.append("")
        else:
            parts[-1] += letter
    return [part.replace("\0", "->").strip() for part in parts if part.strip()]


# The types that a signature takes and the one that it returns, without names and lifetimes.
def shape(text):
    text = re.sub(r"<'\w+>", "", re.sub(r"'\w+,? ", "", text))
    inside = text[text.index("(", len(text) - len(after_generics(text))) :]
    depth = 0
    for end, letter in enumerate(inside):
        depth += (letter == "(") - (letter == ")")
        if depth == 0:
            break
    taken = [re.sub(r"^(mut )?\w+: ", "", part) for part in split(inside[1:end])]
    taken = [re.sub(r"^mut ", "", part) for part in taken]
    return taken, inside[end + 1 :].strip()


# What follows the name of a call and its parameters in angle brackets.
def after_generics(text):
    rest = text[re.search(r"\w+(?=[<(])", text).end() :]
    depth = 0
    for end, letter in enumerate(rest):
        depth += (letter == "<") - (letter == ">")
        if depth == 0:
            return rest[end:] if letter == "(" else rest[end + 1 :]


def anchor(heading):
    return re.sub(r"[^\w\- ]", "", heading.lower()).replace(" ", "-")


# The sections of docs/DIFFERENCES.md by their headings.
def sections():
    return dict(section.split("\n", 1) for section in read(DIFFERENCES).split("\n## ")[1:])


# One listed call at its type: the row of the page, or what is wrong.
def row(owner, line, found, told):
    wanted, _, reason = line.partition(" ; ")
    name, other = re.match(r"\w+", wanted)[0], None
    if reason.startswith("as "):
        other, reason = reason[3:].split(": ", 1)
    if (other or name) not in found:
        return None, f"{name} is gone"
    crate, place, text = found[other or name]
    differs = bool(other) or (text is not None and shape(text) != shape(wanted))
    if differs != bool(reason):
        return None, f"{name} differs: {text}" if differs else f"{name} does not differ"
    if reason and (reason not in told or not re.search(rf"`(\w+::)?{name}`", told[reason])):
        return None, f"{name} has no row in docs/DIFFERENCES.md, {reason}"
    link = f"[{reason}](../DIFFERENCES.md#{anchor(reason)})" if reason else ""
    shown = f"`{name}`, as {linked(crate, owner, other)}" if other else linked(crate, owner, name)
    return f"| {shown} | {source(crate, place)} | {link or 'as listed'} |", None


def source(crate, place):
    return f"[{crate}, {os.path.basename(place)}](../../crates/{crate}/{place})"


# A call with a link to its contract, if the crate's page has it.
def linked(crate, owner, name):
    path = os.path.join(os.path.dirname(OUT), f"{crate}.md")
    heading = name if owner == "Calls" else f"{owner}::{name}"
    there = os.path.exists(path) and f"# `{heading}`\n" in read(path)
    return f"[`{name}`]({crate}.md#{anchor(heading)})" if there else f"`{name}`"


# The table of a type, and what is wrong with it.
def table(name, crate, lines, there, told):
    crates = {home for home, _, owner, _, _ in there if owner == name and crate in (None, home)}
    if len(crates) != 1:
        return [], [f"{name}: {', '.join(sorted(crates)) or 'no calls'}"]
    found = {call: (home, place, text) for home, place, owner, call, text in there if owner == name and home in crates}
    rows, wrong, further = [], [], []
    for line in lines:
        if line.startswith("+ "):
            further += line[2:].split()
            continue
        made, error = row(name, line, found, told)
        rows += [made] if made else []
        wrong += [f"{name}: {error}"] if error else []
    wrong += [f"{name}: {call} is gone" for call in further if call not in found]
    if name != "Calls":
        known = {re.search(r"(?: ; as )?(\w+)(?=: |$)", line)[1] if " ; as " in line else re.match(r"\w+", line)[0] for line in lines if line[0] != "+"}
        wrong += [f"{name}: {call} is not listed" for call in sorted(set(found) - known - {"copy", *further})]
    heading = f"{name} of {crate}" if crate else name
    rows += [f"| {linked(found[call][0], name, call)} | {source(*found[call][:2])} | further |" for call in further if call in found]
    return ["", f"## {heading}", "", "| Call | Where | Signature |", "|---|---|---|", *rows], wrong


def main():
    there, told = list(calls()), sections()
    out, wrong = [], []
    for name, crate, lines in listed():
        made, errors = table(name, crate, lines, there, told)
        out += made
        wrong += errors
    page = HEAD + "\n".join(out) + "\n"
    for error in wrong:
        print(f"WRONG {error}")
    if sys.argv[1:] == ["--check"]:
        return 0 if not wrong and os.path.exists(OUT) and read(OUT) == page else 1
    with open(OUT, "w", encoding="utf-8") as file:
        file.write(page)
    return 1 if wrong else 0


if __name__ == "__main__":
    sys.exit(main())
