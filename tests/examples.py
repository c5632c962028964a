#!/usr/bin/env python3
"""Writes `stdin` and `stdout` of the programs that the gate runs over stored examples, those of crates/rtc_examples_* that have
`data/calls`. `stdin` names each example of the crate's `data/`: the lines of each file `calls`, and the offers, each beside its
answer. `stdout` has each of these lines behind `agrees`. With --check nothing is written, and what is not current is refused, as are
an offer without an answer, a call that `data/calls` leaves out, and a file or a line of tests/WORKED_EXAMPLES.md that is not there.

usage: tests/examples.py [--check]
"""
import glob
import os
import re
import sys

TOP = os.path.dirname(os.path.dirname(os.path.abspath(__file__)))
# Under which word a program is given an example, by the endings of its file and of the one with what it expects.
ENDINGS = {("offer", "answer"): "answer"}


def read(path):
    with open(path, encoding="utf-8") as file:
        return file.read()


# The paths of files in a folder with an ending, without it.
def stems(folder, ending):
    paths = glob.glob(os.path.join(folder, "**", f"*.{ending}"), recursive=True)
    return {os.path.relpath(path, folder)[: -len(ending) - 1] for path in paths}


# The lines that name a crate's examples, and what is wrong with them.
def examples(crate):
    data = os.path.join(crate, "data")
    calls = sorted(glob.glob(os.path.join(data, "**", "calls"), recursive=True))
    lines, wrong = [line for path in calls for line in read(path).splitlines()], []
    for (given, expected), word in ENDINGS.items():
        paths = stems(data, given)
        wrong += [f"{path} is without its .{given} or .{expected}" for path in sorted(paths ^ stems(data, expected))]
        lines += [f"{word} {path}" for path in sorted(paths)]
    for path in sorted(glob.glob(os.path.join(crate, "src", "*.rt"))):
        arms = re.findall(r'^        "(.* .*)" => ', read(path), re.MULTILINE)
        wrong += [f"`{arm}` is not in data/calls" for arm in arms if not any(line.endswith(f" {arm}") for line in lines)]
    return lines, wrong


# What the list of worked examples names and is not there.
def lost():
    for line in read(os.path.join(TOP, "tests", "WORKED_EXAMPLES.md")).splitlines():
        if not line.startswith("| ") or line.startswith("| Example "):
            continue
        for named in re.findall(r"`([^`]+)`", line.split(" | ")[-1]):
            crate, _, example = named.partition(": ")
            there = os.path.exists(os.path.join(TOP, named))
            if example:
                there = example in read(os.path.join(TOP, "crates", crate, "stdin")).splitlines()
            if not there:
                yield f"tests/WORKED_EXAMPLES.md: {named}"


def main():
    check = sys.argv[1:] == ["--check"]
    if sys.argv[1:] and not check:
        sys.exit(__doc__)
    wrong = []
    for calls in sorted(glob.glob(os.path.join(TOP, "crates", "rtc_examples_*", "data", "calls"))):
        crate = os.path.dirname(os.path.dirname(calls))
        name = os.path.basename(crate)
        lines, found = examples(crate)
        wrong += [f"{name}: {what}" for what in found]
        for file, front in (("stdin", ""), ("stdout", "agrees ")):
            path, text = os.path.join(crate, file), "".join(f"{front}{line}\n" for line in lines)
            if not check:
                with open(path, "w", encoding="utf-8") as out:
                    out.write(text)
            elif not os.path.isfile(path) or read(path) != text:
                wrong.append(f"{name}/{file}: run tests/examples.py")
    wrong += list(lost())
    for what in wrong:
        print(f"WRONG {what}")
    return 1 if wrong else 0


if __name__ == "__main__":
    sys.exit(main())
