#!/usr/bin/env python3
"""Reads texts of real stacks with the proved program rtc_sdp_text, and compares its answers with their verdicts.

usage: tests/real_texts.py crates/rtc_sdp_text/out/rtc_sdp_text FOLDER

FOLDER has the texts and `verdicts.json`: for each text whether it is an offer or an answer, and whether the grammar reads
it, with the kind, mid and direction of each line, or refuses it, with the number of the line. It is no part of the gate,
and of such texts only some offers are in this repository, in crates/rtc_examples_peers/data/.
"""
import json
import os
import re
import subprocess
import sys

DIRECTIONS = ("sendrecv", "sendonly", "recvonly", "inactive")


def lines_of(text):
    lines = []
    for line in text.split("\r\n"):
        if line.startswith("m="):
            lines.append({"kind": line[2:].split(" ")[0], "disabled": line.split(" ")[1] == "0", "dir": "sendrecv"})
        elif line.startswith("a=mid:"):
            lines[-1]["mid"] = line[6:]
        elif lines and line[2:] in DIRECTIONS:
            lines[-1]["dir"] = line[2:]
    return lines


def wanted_of(verdict):
    known = ("audio", "video", "application")
    return [
        {
            "kind": line["kind"] if line["kind"] in known else "unknown",
            "disabled": line["port"] == 0,
            "dir": line["dir"],
            "mid": line["mid"],
        }
        for line in verdict["lines"]
    ]


def main():
    program, folder = os.path.abspath(sys.argv[1]), sys.argv[2]
    with open(os.path.join(folder, "verdicts.json"), encoding="utf-8") as file:
        verdicts = json.load(file)
    wrong = 0
    for name, verdict in sorted(verdicts.items()):
        word = "answer" if verdict["type"] == "answer" else "offer"
        with open(os.path.join(folder, name), "rb") as file:
            done = subprocess.run([program, word], stdin=file, capture_output=True, timeout=60)
        if verdict["verdict"] == "read":
            right = done.returncode == 0 and lines_of(done.stdout.decode()) == wanted_of(verdict)
        else:
            right = (done.returncode, done.stdout) == (3, b"text refused at line %d\n" % verdict["line"])
        if not right:
            wrong += 1
            print(f"WRONG {name}: status {done.returncode}, {re.sub(rb'[^ -~]', b'.', done.stdout[:70])!r}")
    print(f"{len(verdicts) - wrong} of {len(verdicts)} texts are read as their verdicts say")
    return 0 if wrong == 0 else 1


if __name__ == "__main__":
    sys.exit(main())
