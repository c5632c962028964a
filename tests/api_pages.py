#!/usr/bin/env python3
"""Writes docs/api/ from the sources: a page for each library crate, with its public types, what they derive and implement, its calls,
doc comments, conditions and clauses as they stand in the sources.

usage: tests/api_pages.py [--check]     with --check nothing is written, and the status tells whether the pages are current
"""
import glob
import os
import re
import sys

TOP = os.path.dirname(os.path.dirname(os.path.abspath(__file__)))
OUT = os.path.join(TOP, "docs", "api")
KINDS = "struct|enum|trait|fn|const|type"
HEAD = """# Public calls

[CALLS.md](CALLS.md) lists the calls by type. Here is a page for each library crate that has public calls, lowest first, made from the sources
by `tests/api_pages.py`: the types and calls that a program can name, with their conditions (`requires`) and clauses (`ensures`). What a clause means is the definition that it cites:
[PROMISES.md](../PROMISES.md) links each one.

| Crate | What it is |
|---|---|
"""


def libraries():
    with open(os.path.join(TOP, "crates.txt"), encoding="utf-8") as file:
        names = [line.split(":")[0].split()[0] for line in file if line.strip() and not line.startswith("#")]
    return [name for name in names if os.path.isfile(os.path.join(TOP, "crates", name, "src", "lib.rt"))]


def sources(crate):
    folder = os.path.join(TOP, "crates", crate, "src")
    paths = glob.glob(os.path.join(folder, "**", "*.rt"), recursive=True)
    return sorted(path for path in paths if "test" not in os.path.relpath(path, folder))


def read(path):
    with open(path, encoding="utf-8") as file:
        return file.read()


# The names that a crate passes on: from files of its own, and from other crates.
def passed_on(crate):
    own, others = set(), {}
    folder = os.path.join(TOP, "crates", crate, "src")
    for path, names in re.findall(r"^pub use ([\w:]+)::(\{[^}]*\}|\w+);", read(os.path.join(folder, "lib.rt")), re.M):
        found, root = re.findall(r"\w+", names), path.split("::")[0]
        if root == "crate" or os.path.exists(os.path.join(folder, root + ".rt")) or os.path.isdir(os.path.join(folder, root)):
            own.update(found)
        elif root.startswith("rtc"):
            others.setdefault(root, []).extend(found)
    return own, others


# The doc comment that stands right before a line, attributes aside.
def comment_before(lines, at):
    found = []
    at -= 1
    while at >= 0 and re.match(r"\s*(///|#\[|\)\]|[\w:, (]+\)\]$)", lines[at]):
        if lines[at].strip().startswith("///"):
            found.insert(0, lines[at].strip()[3:].strip())
        at -= 1
    return "\n".join(found)


# The lines of a declaration: of a call up to its body, of a type with its body.
def declaration(lines, at, kind):
    indent = re.match(r" *", lines[at])[0]
    end = at
    while True:
        line = lines[end]
        if line.endswith(";") and (end == at or line.startswith(indent)):
            depth = sum(text.count("{") - text.count("}") for text in lines[at : end + 1])
            if depth == 0:
                return lines[at : end + 1]
        if kind == "fn" and (line == indent + "{" or line == indent + "{}"):
            return lines[at:end]
        clause = any(re.match(r" *(requires|ensures|decreases)\b", text) for text in lines[at : end + 1])
        if kind == "fn" and line.endswith(" {") and not clause:
            return lines[at:end] + [line[:-2]]
        if kind in ("struct", "enum") and line.startswith(indent + "}"):
            return lines[at : end + 1]
        if kind == "trait" and line.endswith(" {"):
            return lines[at:end] + [line[:-2]]
        end += 1


def fenced(lines):
    depth = min(len(re.match(r" *", line)[0]) for line in lines if line.strip())
    return "```rust\n" + "\n".join(line[depth:] for line in lines) + "\n```"


# Fields that callers cannot name, and attributes, are left out.
def shown(lines, kind):
    kept = [line for line in lines if not line.strip().startswith("#[")]
    if kind == "struct":
        kept = [re.sub(r"\(pub\(.*\);", "(..);", line) for line in kept if not re.match(r"\s+(pub\(|[a-z_]+:|///)", line) or re.match(r"\s+pub \w", line)]
        if len(kept) == 2 and kept[1] == "}":
            kept = [kept[0][:-1] + "{ .. }"]
    return kept


# The crate that a name comes from.
def home(crate, name):
    for other, names in passed_on(crate)[1].items():
        if name in names:
            return home(other, name)
    return crate


def items_of(path):
    lines = read(path).split("\n")
    owner, inside = None, None
    for at, line in enumerate(lines):
        # An impl whose parameters take several lines names its type behind them.
        block = re.match(r"(?:(?:impl(?:<.*?>)?|>) (?:[\w:]+(?:<[^{]*?>)? for )?|pub trait )(\w+)", line)
        if block:
            owner, inside = block[1], "trait" if line.startswith("pub trait") else ("impl" if " for " not in line else "other")
        elif line.startswith("}"):
            owner = inside = None if not re.match(r"\}\s*$", line) else None
        item = re.match(rf"( *)(pub )?(?:final )?(?:const )?({KINDS}) (\w+)", line)
        if not item or (item[1] and not owner):
            continue
        if not item[2] and not (inside == "trait" and item[3] == "fn"):
            continue
        if len(item[1]) > 4 or (item[1] and inside == "other"):
            continue
        yield owner if item[1] else None, item[3], item[4], comment_before(lines, at), declaration(lines, at, item[3])


# What each type of a text derives.
def derived(text):
    for traits, name in re.findall(r"^#\[derive\(([^)]*)\)\]\n(?:#\[.*\]\n|//.*\n)*pub (?:struct|enum) (\w+)", text, re.M):
        yield name, [trait.strip() for trait in traits.split(",") if trait.strip()]


# What each type of a text implements by hand: traits, with the types that they are of. What contracts see of a type is no trait.
def implemented(text):
    for head in re.findall(r"^impl\b([^{;]*)\{", text, re.M):
        depth, start = 0, 0
        for place, letter in enumerate(head):
            depth += (letter == "<") - (letter == ">" and head[place - 1] not in "-=")
            if depth == 0 and letter in "> ":
                start = place + 1
                break
        found = re.match(r"\s*([\w:]+(?:<[^{]*?>)?)\s+for\s+(\w+)", head[start:])
        if found and found[1] != "Model":
            yield found[2], re.sub(r"\s+", " ", found[1])


# The traits of each type of a crate, as a line of its page.
def traits_of(crate):
    derives, impls = {}, {}
    for text in map(read, sources(crate)):
        for name, traits in derived(text):
            derives.setdefault(name, []).extend(traits)
        for name, trait in implemented(text):
            impls.setdefault(name, []).append(trait)
    for name in set(derives) | set(impls):
        found = [(word, there[name]) for word, there in (("Derives", derives), ("Implements", impls)) if name in there]
        yield name, " ".join(f"{word} {', '.join(f'`{trait}`' for trait in sorted(set(traits)))}." for word, traits in found)


def page(crate):
    own, others = passed_on(crate)
    traits = dict(traits_of(crate))
    modules = set(re.findall(r"^pub mod (\w+)", read(os.path.join(TOP, "crates", crate, "src", "lib.rt")), re.M))
    entries, calls = [], {}
    for path in sources(crate):
        open_module = os.path.basename(path)[:-3] in modules
        for owner, kind, name, told, text in items_of(path):
            if owner is not None:
                calls.setdefault(owner, []).append((name, told, text))
            elif name in own or open_module or path.endswith("lib.rt"):
                entries.append((name, kind, told, text))
    intro = "\n".join(line[3:].strip() for line in read(os.path.join(TOP, "crates", crate, "src", "lib.rt")).split("\n") if line.startswith("//!"))
    out = [f"# {crate}", "", intro, "", f"What is proved of it: [its README](../../crates/{crate}/README.md)."]
    for name, kind, told, text in sorted(entries, key=lambda entry: (entry[1] == "fn", entry[0].lower())):
        out += ["", f"## `{name}`", "", *([told, ""] if told else []), fenced(shown(text, kind))]
        out += ["", traits[name]] if kind in ("struct", "enum") and name in traits else []
        for call, says, contract in calls.get(name, []):
            out += ["", f"### `{name}::{call}`", "", *([says, ""] if says else []), fenced(contract)]
    if others:
        out += ["", "## Passed on", ""]
        for name in sorted({name for names in others.values() for name in names}):
            origin = next(home(other, name) for other, names in others.items() if name in names)
            out.append(f"- [`{name}`]({origin}.md#{name.lower()}) of {origin}")
    return "\n".join(out) + "\n", intro


def pages():
    rows = []
    for crate in libraries():
        text, intro = page(crate)
        if "\n## " not in text:
            continue
        yield f"{crate}.md", text
        first = intro.replace("\n", " ").split(". ")[0].rstrip(".")
        rows.append(f"| [{crate}]({crate}.md) | {first} |")
    yield "README.md", HEAD + "\n".join(rows) + "\n"


def main():
    made = dict(pages())
    there = {os.path.basename(path): read(path) for path in glob.glob(os.path.join(OUT, "*.md"))}
    there.pop("CALLS.md", None)
    if sys.argv[1:] == ["--check"]:
        return 0 if made == there else 1
    os.makedirs(OUT, exist_ok=True)
    for name in set(there) - set(made):
        os.remove(os.path.join(OUT, name))
    for name, text in made.items():
        with open(os.path.join(OUT, name), "w", encoding="utf-8") as file:
            file.write(text)
    return 0


if __name__ == "__main__":
    sys.exit(main())
