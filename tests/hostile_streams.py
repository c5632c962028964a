#!/usr/bin/env python3
"""Feeds hostile streams to the proved program rtc_gate, and checks its replies beside a model, its time, and its memory.

usage: tests/hostile_streams.py crates/rtc_gate/out/rtc_gate [SEED [COUNT]]

The streams: each cut of a frame, a byte at a time, lengths at the ends of their ranges, names of every length, bytes at random, and
many connections that each leave a frame unfinished. The memory of a run may grow with its script and no faster.
"""
import os
import random
import resource
import subprocess
import sys
import tempfile
import time

HEADER = "str0m-gate 1"
TOKENS = set(b"!#$%&'*+-.^_`{|}~") | set(range(0x30, 0x3A)) | set(range(0x41, 0x5B)) | set(range(0x61, 0x7B))
DESCRIPTION = b"v=0\r\no=- 1 2 IN IP4 0.0.0.0\r\ns=-\r\n"
# Texts of offers and answers whose verdict is known.
VERDICTS = {DESCRIPTION: True, b"": False, b"v=0": False, b"hello": False, b"m=audio 9 UDP 0\r\n": False}
# How many bytes a run may take for each byte of its script, beside what an empty one takes.
BYTES_A_BYTE = 40


def is_name(name):
    return 1 <= len(name) <= 32 and all(byte in TOKENS for byte in name)


def frame(kind, name, text=b"", body=None):
    body = bytes([kind, len(name) & 255]) + name + text if body is None else body
    return len(body).to_bytes(4, "big") + body


def said_by(body):
    if len(body) < 2 or body[0] not in (1, 2, 3) or len(body) < 2 + body[1]:
        return None
    name, text = body[2 : 2 + body[1]], body[2 + body[1] :]
    try:
        text.decode()
    except UnicodeDecodeError:
        return None
    return (body[0], name, text) if is_name(name) else None


class Model:
    """A gateway by its rules, over whole streams: each feed splits the stream from its first byte."""

    def __init__(self):
        self.joined, self.here = 0, {}

    def split(self, stream):
        frames, at = [], 0
        while len(stream) - at >= 4:
            size = int.from_bytes(stream[at : at + 4], "big")
            if not 3 <= size <= 65536:
                return frames, at, True
            if len(stream) - at < 4 + size:
                return frames, at, False
            said = said_by(stream[at + 4 : at + 4 + size])
            if said is None:
                return frames, at, True
            frames.append(said)
            at += 4 + size
        return frames, at, False

    def route(self, sender, kind, name, text):
        if kind in (1, 2) and not VERDICTS[text]:
            return sender["queue"].append(frame(5, name))
        for other in self.here.values():
            if other["name"] == name:
                return other["queue"].append(frame(kind, sender["name"], text))
        return sender["queue"].append(frame(4, name))

    def join(self, name):
        if not is_name(name):
            return "refused badname"
        if any(other["name"] == name for other in self.here.values()):
            return "refused nametaken"
        if len(self.here) >= 1024:
            return "refused full"
        self.here[self.joined] = {"name": name, "stream": b"", "known": 0, "queue": []}
        self.joined += 1
        return f"joined {self.joined - 1}"

    def leave(self, number):
        return "left" if self.here.pop(number, None) else "refused nosuch"

    def feed(self, number, piece):
        sender = self.here.get(number)
        if sender is None:
            return "refused nosuch"
        sender["stream"] += piece
        frames, at, stuck = self.split(sender["stream"])
        fresh, sender["known"] = frames[sender["known"] :], len(frames)
        for said in fresh:
            self.route(sender, *said)
        return f"refused badframe {at}" if stuck else f"fed {len(fresh)}"

    def take(self, number):
        if number not in self.here:
            return "refused nosuch"
        queue = self.here[number]["queue"]
        return f"took {queue.pop(0).hex()}" if queue else "none"


class Script:
    def __init__(self):
        self.lines, self.replies, self.model = [HEADER], [], Model()

    def join(self, name):
        self.lines.append("join " + name.decode())
        self.replies.append(self.model.join(name))

    def call(self, verb, number):
        self.lines.append(f"{verb} {number}")
        self.replies.append(getattr(self.model, verb)(number))

    def feed(self, number, piece):
        self.lines.append(f"feed {number} {piece.hex() or '-'}")
        self.replies.append(self.model.feed(number, piece))

    def take_all(self):
        for number in list(self.model.here):
            while self.replies[-1] != "none" or not self.lines[-1] == f"take {number}":
                self.call("take", number)

    def text(self):
        return "".join(line + "\n" for line in self.lines).encode(), "".join(reply + "\n" for reply in self.replies).encode()


def begun(*names):
    script = Script()
    for name in names or (b"a", b"b"):
        script.join(name)
    return script


def each_cut():
    stream = frame(3, b"b", b"hi") + frame(1, b"b", DESCRIPTION) + frame(3, b"nobody", b"") + frame(2, b"b", b"hello")
    for at in range(len(stream) + 1):
        script = begun()
        script.feed(0, stream[:at])
        script.feed(0, stream[at:])
        script.take_all()
        yield f"cut at {at}", script
    script = begun()
    for byte in stream * 20:
        script.feed(0, bytes([byte]))
    script.take_all()
    yield "a byte at a time", script


def each_length():
    for size in (0, 1, 2, 3, 4, 5, 255, 256, 65535, 65536, 65537, 2**16 + 2**24, 2**31 - 1, 2**31, 2**32 - 4, 2**32 - 1):
        for behind in (b"", b"\x03\x01b", b"\x03\x01b" + bytes(300), frame(3, b"b", b"hi") * 3):
            script = begun()
            script.feed(0, frame(3, b"b", b"before") + size.to_bytes(4, "big") + behind)
            script.feed(0, b"more")
            script.feed(0, b"")
            script.take_all()
            yield f"a length of {size}", script
    script = begun()
    script.feed(0, frame(3, b"b", b"x" * (65536 - 3)) * 3)
    script.take_all()
    yield "the longest bodies", script


def each_name():
    for size in (0, 1, 2, 31, 32, 33, 254, 255):
        for letter in (b"b", b"(", b"\xc3", b"\x00", b" "):
            script = begun(b"a", b"b" * max(1, min(size, 32)))
            script.feed(0, frame(3, letter * size, b"hi"))
            script.feed(0, frame(3, b"b" * size))
            script.feed(0, frame(3, b"", body=bytes([3, size]) + b"b" * (size // 2)))
            script.take_all()
            yield f"a name of {size} bytes", script


def at_random(dice):
    script = begun(b"a", b"b", b"c!")
    for _ in range(dice.randrange(1, 60)):
        number = dice.randrange(0, script.model.joined + 1)
        kind, name = dice.choice((0, 1, 2, 3, 3, 3, 4, 5, 6, 255)), dice.choice((b"a", b"b", b"c!", b"x", b"", b"A" * 33))
        text = dice.choice(list(VERDICTS)) if kind in (1, 2) else dice.choice((b"", b"hi", b"\xff", b"\xc3\xa9", bytes(dice.randrange(500))))
        stream = dice.choice((frame(kind, name, text), frame(3, b"b", b"hi"), dice.randbytes(dice.randrange(40)), b"\0\0\0"))
        cut = dice.randrange(len(stream) + 1)
        act = dice.randrange(10)
        if act == 0:
            script.join(dice.choice((b"a", b"b", b"c!", b"d", b"e" * 33, b"(", "é".encode())))
        elif act == 1:
            script.call("leave", number)
        elif act < 4:
            script.call("take", number)
        elif act < 6:
            script.feed(number, stream)
        else:
            script.feed(number, stream[:cut])
            script.feed(number, stream[cut:])
    script.take_all()
    return script


def many_connections():
    script = Script()
    for number in range(1026):
        script.join(b"n%d" % number)
    for number in range(1024):
        script.feed(number, (65536).to_bytes(4, "big") + b"\x03\x01b" + b"x" * 100)
    for number in range(0, 1024, 3):
        script.call("leave", number)
    script.join(b"late")
    script.take_all()
    return script


def run(program, given):
    with tempfile.TemporaryFile() as source, tempfile.TemporaryFile() as sink:
        source.write(given)
        source.seek(0)
        begin = time.monotonic()
        child = subprocess.Popen([program, "run"], stdin=source, stdout=sink)
        _, status, usage = os.wait4(child.pid, 0)
        child.returncode = os.waitstatus_to_exitcode(status)
        sink.seek(0)
        return child.returncode, sink.read(), time.monotonic() - begin, usage.ru_maxrss * 1024


def main():
    program = os.path.abspath(sys.argv[1])
    dice = random.Random(int(sys.argv[2]) if len(sys.argv) > 2 else 1)
    count = int(sys.argv[3]) if len(sys.argv) > 3 else 200
    scripts = [*each_cut(), *each_length(), *each_name(), ("many connections", many_connections())]
    scripts += [(f"at random, {number}", at_random(dice)) for number in range(count)]
    least = run(program, (HEADER + "\n").encode())[3]
    wrong, slowest, most = 0, 0, 0
    for what, script in scripts:
        given, expected = script.text()
        status, written, seconds, memory = run(program, given)
        slowest, most = max(slowest, seconds), max(most, (memory - least) / len(given) if len(given) > 100_000 else 0)
        # a child begins as a copy of this process, whose memory counts as its own
        own = resource.getrusage(resource.RUSAGE_SELF).ru_maxrss * 1024
        if (status, written) != (0, expected) or seconds > 10 or memory > max(own, least) + 1_000_000 + BYTES_A_BYTE * len(given):
            wrong += 1
            print(f"WRONG {what}: status {status}, {seconds:.2f} s, {memory:,} bytes of memory")
            for number, (reply, wanted) in enumerate(zip(written.split(b"\n"), expected.split(b"\n"))):
                if reply != wanted:
                    print(f"  reply {number}: {reply[:80]!r} and not {wanted[:80]!r}")
                    break
    print(f"{len(scripts) - wrong} of {len(scripts)} scripts answered as the model; slowest {slowest:.2f} s, at most {most:.1f} bytes of memory for a byte of a long script")
    return 1 if wrong else 0


if __name__ == "__main__":
    sys.exit(main())
