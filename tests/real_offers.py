#!/usr/bin/env python3
"""Gives texts of real stacks to a fresh peer as offers that anybody wrote, and compares its reports with those of the model of
tests/random_scripts.py.

usage: tests/real_offers.py crates/rtc_pair/out/rtc_pair FOLDER

FOLDER has the texts and `verdicts.json`, as for tests/real_texts.py: what the grammar reads of each text, or the line at which it refuses
it. The model has to read the texts so, too. It is no part of the gate.
"""
import json
import os
import subprocess
import sys

from descriptions import KINDS, Refused, read
from random_scripts import Pair


# The lines of a text, or the line that refuses it, as the verdict has them.
def read_lines(text):
    try:
        return [(line.kind, line.mid, line.port, line.direction) for line in read(text).lines]
    except Refused as cause:
        return str(cause)


def lines_due(verdict):
    if verdict["verdict"] != "read":
        return f"2 SDP parse error at line {verdict['line']}"
    kinds = [KINDS.get(line["kind"].encode(), "unknown") for line in verdict["lines"]]
    return [(kind, line["mid"], line["port"] > 0, None if kind == "app" else line["dir"]) for kind, line in zip(kinds, verdict["lines"])]


def main():
    program, folder = os.path.abspath(sys.argv[1]), sys.argv[2]
    with open(os.path.join(folder, "verdicts.json"), encoding="utf-8") as file:
        verdicts = json.load(file)
    wrong, answered = 0, 0
    for name, verdict in sorted(verdicts.items()):
        with open(os.path.join(folder, name), "rb") as file:
            text = file.read()
        if read_lines(text) != lines_due(verdict):
            wrong += 1
            print(f"WRONG {name}: the model reads {read_lines(text)} and not {lines_due(verdict)}")
        pair = Pair()
        pair.perform(f"L foreignoffer {text.hex()}")
        answered += pair.report.startswith("step 0 L answered")
        done = subprocess.run([program, "run"], input=pair.script().encode(), capture_output=True, timeout=60)
        if (done.returncode, done.stdout.decode()) != (0, pair.report):
            wrong += 1
            print(f"WRONG {name}: status {done.returncode}\n{done.stdout.decode()}and not\n{pair.report}")
    print(f"{len(verdicts)} texts, {answered} of them answered, {wrong} wrong")
    return 1 if wrong else 0


if __name__ == "__main__":
    sys.exit(main())
