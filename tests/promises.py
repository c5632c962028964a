#!/usr/bin/env python3
"""Writes docs/PROMISES.md from the sources: for each public call of each crate its clauses, and the definitions that they cite.

usage: tests/promises.py [--check]     with --check nothing is written, and the status tells whether the file is current
"""
import glob
import os
import re
import sys

TOP = os.path.dirname(os.path.dirname(os.path.abspath(__file__)))
OUT = os.path.join(TOP, "docs", "PROMISES.md")
HEAD = """# Promises

From each public call to its clauses and to the definitions that they cite, made from the sources by `tests/promises.py`. A clause
is what the call promises, whatever stands in its body; a definition is what the clause means. A call with an empty body is a law
over definitions. Each crate's README says in words what is proved. Calls without a clause are proved to be safe and to end, and
promise no more.
"""


def crates():
    with open(os.path.join(TOP, "crates.txt"), encoding="utf-8") as file:
        return [line.split(":")[0].split()[0] for line in file if line.strip() and not line.startswith("#")]


def sources(crate):
    folder = os.path.join(TOP, "crates", crate, "src")
    paths = glob.glob(os.path.join(folder, "**", "*.rt"), recursive=True)
    return sorted(path for path in paths if "test" not in os.path.relpath(path, folder))


# The names that a crate passes on to its callers.
def exported(crate):
    folder = os.path.join(TOP, "crates", crate, "src")
    root = next(path for path in (os.path.join(folder, "lib.rt"), os.path.join(folder, "main.rt")) if os.path.isfile(path))
    with open(root, encoding="utf-8") as file:
        return set(re.findall(r"\w+", " ".join(re.findall(r"pub use ([^;]*);", file.read()))))


# The names that a file imports from definitions, each with the crate and the file of its definition.
def imported(text):
    names = {}
    for crate, module, inside in re.findall(r"ghost use Rattle\.(rtc\w*)\.specs\.(\w+)\.\{([^}]*)\}", text):
        for name in filter(None, (part.strip() for part in inside.split(","))):
            old, _, new = name.partition(" as ")
            names[(new or old).strip()] = (crate, module, old.strip())
    for crate, module, alias in re.findall(r"ghost use Rattle\.(rtc\w*)\.specs\.(\w+) as (\w+)", text):
        names[alias] = (crate, module, None)
    return names


# The name and the text of each clause of a contract, in order.
def clauses(contract):
    for found in re.finditer(r"ensures(?: (\w+))? \{", contract):
        depth, end = 1, found.end()
        while depth and end < len(contract):
            depth += {"{": 1, "}": -1}.get(contract[end], 0)
            end += 1
        yield found[1], contract[found.end() : end - 1]


def cited(text, names):
    for word, _, member in re.findall(r"([A-Za-z_][\w'-]*)(\.([A-Za-z_][\w'-]*))?", text):
        if word in names:
            crate, module, name = names[word]
            yield crate, module, name or member


# Each public call of a file that callers can name: its name, the names of its clauses, and the definitions that they cite.
def calls(path, public):
    with open(path, encoding="utf-8") as file:
        text = file.read()
    names = imported(text)
    owners = [(found.start(), found[1] or found[2]) for found in re.finditer(r"^(?:impl(?:<[^>]*>)? (?:[^\n{]*? for )?(\w+)|pub trait (\w+))", text, re.M)]
    traits = {owner for _, owner in owners if re.search(rf"^pub trait {owner}\b", text, re.M)}
    for found in re.finditer(r"^( *)(pub )?(?:const )?fn (\w+)", text, re.M):
        owner = max(((at, name) for at, name in owners if at < found.start()), default=(0, ""))[1] if found[1] else ""
        if (not found[2] and owner not in traits) or (owner or found[3]) not in public:
            continue
        end = re.search(r"^ *\{\}?$|;$|^(?! *(?:ensures|requires)\b).* \{\}?$", text[found.start() :], re.M)
        contract = text[found.start() : found.start() + (end.start() if end else 0)]
        ensured = list(clauses(contract))
        if ensured:
            cites = dict.fromkeys(definition for _, inside in ensured for definition in cited(inside, names))
            yield (f"{owner}::" if owner else "") + found[3], [name for name, _ in ensured if name], list(cites)


def row(path, call, named, cites):
    links = []
    for crate, module, name in cites:
        target = os.path.join(TOP, "crates", crate, "specs", f"{module}.antt")
        if name and os.path.isfile(target):
            links.append(f"[`{name}`](../crates/{crate}/specs/{module}.antt)")
    shown = ", ".join(f"`{name}`" for name in named) or "one, without a name"
    return f"| [`{call}`](../{os.path.relpath(path, TOP)}) | {shown} | {', '.join(links) or 'words of std alone'} |"


def page():
    lines = [HEAD]
    for crate in crates():
        public = exported(crate)
        rows = [row(path, *call) for path in sources(crate) for call in calls(path, public)]
        if rows:
            lines += [f"## {crate}\n", f"[What is proved of {crate}](../crates/{crate}/README.md#proved)\n", "| Call | Clauses | Definitions |", "|---|---|---|", *rows, ""]
    return "\n".join(lines)


def main():
    text = page()
    if sys.argv[1:] == ["--check"]:
        with open(OUT, encoding="utf-8") as file:
            return 0 if file.read() == text else 1
    if sys.argv[1:]:
        sys.exit(__doc__)
    with open(OUT, "w", encoding="utf-8") as file:
        file.write(text)
    return 0


if __name__ == "__main__":
    sys.exit(main())
