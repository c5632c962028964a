"""Reads and writes a session description so many times by aiortc: texts.py FILE TIMES."""
import sys

from aiortc.sdp import SessionDescription

with open(sys.argv[1], encoding="utf-8") as file:
    TEXT = file.read()
print(sum(len(str(SessionDescription.parse(TEXT))) for _ in range(int(sys.argv[2]))))
