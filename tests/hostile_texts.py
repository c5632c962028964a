#!/usr/bin/env python3
"""Feeds hostile inputs to the proved program rtc_sdp_text, and checks its status and its time against the length.

usage: tests/hostile_texts.py crates/rtc_sdp_text/out/rtc_sdp_text [FOLDER of good texts]

It is no part of the gate. Each input is written to the program's standard input; the program has to end by itself with
status 0 and a text, or with status 3 and one line that names a line of the input, within a time that grows with the
length. What status 0 wrote is fed once more, and has to be written as it stands. The word `explain` has to end with the same
status, with a row for each line, and of a refused text for each up to the line that is told.
"""
import os
import random
import re
import subprocess
import sys
import time

LIMIT = 1_048_576
HEAD = b"v=0\r\no=- 1 2 IN IP4 127.0.0.1\r\ns=-\r\nt=0 0\r\n"
LINE = b"m=audio 9 UDP/TLS/RTP/SAVPF 0\r\nc=IN IP4 0.0.0.0\r\na=mid:0\r\na=sendrecv\r\n"
# The seconds that a start may take, and each MiB besides.
START, EACH_MIB = 1.0, 4.0


def run(program, bytes_in, word="offer"):
    begun = time.monotonic()
    done = subprocess.run([program, word], input=bytes_in, capture_output=True, timeout=120)
    return done.returncode, done.stdout, time.monotonic() - begun


def lines_in(bytes_in):
    return bytes_in.count(b"\n") + (1 if bytes_in and not bytes_in.endswith(b"\n") else 0)


# What is wrong with the rows of a text, of which `offer` ended with this status and told this line.
def wrong_rows(program, bytes_in, status, told):
    end, rows, _ = run(program, bytes_in, "explain")
    wanted = told if status == 3 else lines_in(bytes_in)
    if end != status:
        return [f"explained with status {end}"]
    if rows.count(b"\n") != wanted:
        return [f"explained by {rows.count(bytes([10]))} rows and not {wanted}"]
    last = rows.split(b"\n")[-2] if rows else b""
    return [] if last.startswith(b"refused (") == (status == 3) else [f"last row {last[:60]!r}"]


def check(program, name, bytes_in):
    status, out, seconds = run(program, bytes_in)
    allowed = START + EACH_MIB * len(bytes_in) / LIMIT
    wrong = []
    if seconds > allowed:
        wrong.append(f"took {seconds:.2f} s for {len(bytes_in)} bytes")
    if len(bytes_in) > LIMIT:
        if (status, out) != (7, b"text too long\n"):
            wrong.append(f"status {status} for a long text")
    elif status == 3:
        told = re.fullmatch(rb"text refused at line ([0-9]+)\n", out)
        # A text that ends before its second line is refused behind its last.
        if not told or not 1 <= int(told[1]) <= bytes_in.count(b"\n") + 2:
            wrong.append(f"told {out[:60]!r}")
        else:
            wrong += wrong_rows(program, bytes_in, status, int(told[1]))
    elif status == 0:
        wrong += wrong_rows(program, bytes_in, status, 0)
        again, twice, _ = run(program, out) if len(out) <= LIMIT else (0, out, 0.0)
        if (again, twice) != (0, out):
            wrong.append("what was written is not read as it stands")
    else:
        wrong.append(f"status {status}")
    if wrong:
        print(f"WRONG {name}: {'; '.join(wrong)}")
    return not wrong, seconds


def mutated(chance, text):
    text = bytearray(text)
    for _ in range(chance.randint(1, 8)):
        at = chance.randrange(len(text)) if text else 0
        kind = chance.randrange(4)
        if kind == 0 and text:
            text[at] = chance.randrange(256)
        elif kind == 1:
            text[at:at] = bytes([chance.randrange(256)])
        elif kind == 2:
            del text[at:at + chance.randint(1, 20)]
        else:
            other = chance.randrange(len(text)) if text else 0
            text[at:at] = text[other:other + chance.randint(1, 80)]
    return bytes(text)


def large():
    yield "a text of 1 MiB without a line feed", b"v" * LIMIT
    yield "one byte past the limit", b"\n" * (LIMIT + 1)
    yield "500,000 empty lines", b"\n" * 500_000
    yield "500,000 empty lines behind a head", HEAD + b"\n" * 500_000
    yield "100,000 skipped attributes", HEAD + LINE + b"a=x:y\r\n" * 100_000
    yield "60,000 extmap attributes", HEAD + LINE + b"a=extmap:1 urn:x\r\n" * 58_000
    yield "80,000 rtpmap attributes of one number", HEAD + LINE + b"a=rtpmap:0 A/1\n" * 65_000
    yield "30,000 candidates", HEAD + LINE + b"a=candidate:1 1 udp 1 1.1.1.1 1 typ host\r\n" * 23_000
    yield "40,000 ssrc attributes", HEAD + LINE + b"".join(b"a=ssrc:%d cname:c\n" % n for n in range(45_000))
    yield "30,000 pairs of sources", HEAD + LINE + b"".join(b"a=ssrc-group:FID %d %d\n" % (n, n + 1) for n in range(30_000))
    yield "20,000 rid attributes", HEAD + LINE + b"".join(b"a=rid:r%d send\n" % n for n in range(45_000))
    yield "a list of 100,000 layers", HEAD + LINE + b"a=simulcast:send " + b";".join(b"r%d" % n for n in range(100_000)) + b"\n"
    yield "10,000 line parts", HEAD + b"".join(b"m=audio 9 UDP/TLS/RTP/SAVPF 0\na=mid:%d\n" % n for n in range(20_000))
    yield "20,000 line parts without a mid", HEAD + b"m=audio 9 UDP/TLS/RTP/SAVPF 0\n" * 30_000
    yield "a group of 100,000 mids", HEAD + b"a=group:BUNDLE" + b"".join(b" %d" % n for n in range(100_000)) + b"\n"


def main():
    program = os.path.abspath(sys.argv[1])
    good = [HEAD + b"a=group:BUNDLE 0\r\n" + LINE]
    if len(sys.argv) > 2:
        for name in sorted(os.listdir(sys.argv[2])):
            if name.endswith(".sdp"):
                with open(os.path.join(sys.argv[2], name), "rb") as file:
                    good.append(file.read())
    chance = random.Random(1)
    cases = list(large())
    cases += [(f"random bytes {n}", chance.randbytes(chance.randrange(4000))) for n in range(300)]
    cases += [(f"mutation {n}", mutated(chance, chance.choice(good))) for n in range(1500)]
    held, slowest = 0, (0.0, "")
    for name, bytes_in in cases:
        right, seconds = check(program, name, bytes_in)
        held += right
        slowest = max(slowest, (seconds, name))
    print(f"{held} of {len(cases)} inputs held; the slowest took {slowest[0]:.2f} s: {slowest[1]}")
    return 0 if held == len(cases) else 1


if __name__ == "__main__":
    sys.exit(main())
