#!/usr/bin/env python3
"""Makes the pictures of docs/pictures/ from stored scripts with their reports, by tools/draw.

usage: tests/pictures.py [--check]     with --check nothing is written, and the status tells whether the pictures are current, and
                                       whether tools/draw writes the stored sequence diagram in Mermaid
"""
import os
import subprocess
import sys

TOP = os.path.dirname(os.path.dirname(os.path.abspath(__file__)))
PICTURES = {
    "first.svg": "examples/first",
    "crossed_offers.svg": "examples/crossed_offers",
    "messages_over_a_channel.svg": "tests/data/scripts/by_hand/messages_over_a_channel",
}
MERMAID = {"tests/data/drawings/first.mermaid": "examples/first"}


def drawn(stem, form):
    words = [sys.executable, "tools/draw", f"{stem}.script", f"{stem}.report", form]
    return subprocess.run(words, cwd=TOP, capture_output=True, check=True, timeout=60).stdout


def is_current(path, expected):
    with open(os.path.join(TOP, path), "rb") as file:
        if file.read() == expected:
            return True
    print(f"WRONG {path}")
    return False


def main():
    if sys.argv[1:] not in ([], ["--check"]):
        sys.exit(__doc__)
    made = {f"docs/pictures/{name}": drawn(stem, "svg") for name, stem in PICTURES.items()}
    if sys.argv[1:]:
        stored = {path: drawn(stem, "mermaid") for path, stem in MERMAID.items()}
        return 0 if all([is_current(*pair) for pair in [*made.items(), *stored.items()]]) else 1
    for path, picture in made.items():
        with open(os.path.join(TOP, path), "wb") as file:
            file.write(picture)
    return 0


if __name__ == "__main__":
    sys.exit(main())
