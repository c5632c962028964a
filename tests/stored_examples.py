#!/usr/bin/env python3
"""Runs the proved programs over stored scripts and session descriptions, and compares what they write with what is stored beside
each. tests/run does so over the programs as both compilers build them.

usage: tests/stored_examples.py

- `PATH.script` of examples/ and tests/data/scripts/ is performed by `rtc_pair run`, or by `rtc_room run` if it begins with the header of
  a room, and gives `PATH.report`.
- `NAME.orderly` of tests/data/scripts/orderly/ goes round by round. The list `rounds` there says how many of its steps accept an
  answer, and each of them is finished.
- `PATH.script` of tests/data/gate/ is performed by `rtc_gate run`, and gives `PATH.report`, and one of tests/data/room/ by `rtc_room run`.
- `PATH.sdp` of tests/data/descriptions/ is read and written again by `rtc_sdp_text offer`, as `PATH.expected` says: `refused N`; or
  `read`, and behind it lines `has LINE`, which stands once in what is written, and `lacks FRONT`, by which no line begins.
"""
import glob
import os
import re
import subprocess
import sys

from programs import builds

TOP = os.path.dirname(os.path.dirname(os.path.abspath(__file__)))
DATA = os.path.join(TOP, "tests", "data")


def read(path):
    with open(path, "rb") as file:
        return file.read()


# The paths of the files in a folder, and below it, that have one of two endings, without it. Each has to have both.
def stems(folder, given, expected):
    found = [
        {path[: -len(ending)] for path in glob.glob(os.path.join(folder, "**", f"*{ending}"), recursive=True)}
        for ending in (given, expected)
    ]
    if found[0] != found[1] or not found[0]:
        sys.exit(f"without its {given} or {expected}: {sorted(found[0] ^ found[1]) or folder}")
    return sorted(found[0])


# What a program writes, and the status that it ends with.
def perform(program, word, given):
    done = subprocess.run([program, word], input=given, capture_output=True, timeout=60)
    return done.returncode, done.stdout


# The status of a script, by its report.
def script_status(report):
    return 3 if report.startswith(b"script refused at line ") else 0


# The program that performs a script: a header tells rooms apart.
def performer(name, script):
    return "rtc_room" if script.startswith(b"str0m-room ") else name


def reports(name, folder):
    for stem in stems(folder, ".script", ".report"):
        script, report = read(f"{stem}.script"), read(f"{stem}.report")
        for program in builds(performer(name, script)):
            yield stem, perform(program, "run", script) == (script_status(report), report)


# Whether as many steps of a script accept an answer, and all of them are finished.
def is_finished(script, done, rounds):
    status, report = done
    answers = re.findall(rb"^[LR] answer ", script, re.MULTILINE)
    finished = re.findall(rb"^step [0-9]+ [LR] finished$", report, re.MULTILINE)
    return status == 0 and len(answers) == rounds == len(finished)


def orderly():
    folder = os.path.join(DATA, "scripts", "orderly")
    for line in read(os.path.join(folder, "rounds")).decode().splitlines():
        name, rounds = line.split()
        script = read(os.path.join(folder, f"{name}.orderly"))
        for program in builds("rtc_pair"):
            yield name, is_finished(script, perform(program, "run", script), int(rounds))


# Whether one expectation holds of the lines that are written.
def does_hold(expected, lines):
    word, text = expected.split(" ", 1)
    if word == "has":
        return lines.count(text) == 1
    return word == "lacks" and not any(line.startswith(text) for line in lines)


def is_read(done, expected):
    status, written = done
    first, *rest = expected.decode().split("\n")[:-1]
    if first != "read":
        number = re.fullmatch("refused ([1-9][0-9]*)", first)
        return number is not None and not rest and done == (3, f"text refused at line {number[1]}\n".encode())
    lines = written.decode().split("\r\n")
    return status == 0 and all(does_hold(line, lines) for line in rest)


def descriptions():
    for stem in stems(os.path.join(DATA, "descriptions"), ".sdp", ".expected"):
        text, expected = read(f"{stem}.sdp"), read(f"{stem}.expected")
        for program in builds("rtc_sdp_text"):
            yield stem, is_read(perform(program, "offer", text), expected)


# Whether each example gives what is expected.
def results():
    scripts = [os.path.join(TOP, "examples"), os.path.join(DATA, "scripts")]
    tables = [*(reports("rtc_pair", folder) for folder in scripts), orderly()]
    others = [reports(name, os.path.join(DATA, name.removeprefix("rtc_"))) for name in ("rtc_gate", "rtc_room")]
    for table in [*tables, *others, descriptions()]:
        for path, agrees in table:
            if not agrees:
                print(f"WRONG {os.path.relpath(path, TOP) if os.path.isabs(path) else path}")
            yield agrees


def main():
    if sys.argv[1:]:
        sys.exit(__doc__)
    found = list(results())
    print(f"{found.count(True)} of {len(found)} stored examples agree")
    return 0 if all(found) else 1


if __name__ == "__main__":
    sys.exit(main())
