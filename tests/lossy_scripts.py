#!/usr/bin/env python3
"""Runs the program rtc_pair on random scripts whose datagrams are lost, repeated and reordered, while both sides write to data
channels, open and close them.

usage: tests/lossy_scripts.py PROGRAM [SEED [COUNT]]

A seed settles the scripts. Each report is compared with that of the model of tests/random_scripts.py, which is written from the rules of
docs/FORMATS.md and not from the program. Beside this the messages of each report are judged by themselves: what comes out of a stream
at one end is a front of what was written at the other, each channel and each stream generation is told to be open at most once an end,
and where nothing was closed and all was acknowledged at last, every channel is open at both ends and every message came, unless a side
takes no message as long as an open one.
"""
import random
import subprocess
import sys

from connections import SECOND
from random_scripts import OTHER, Pair, random_settings

# By how a datagram fares: it arrives, is lost, comes twice, or comes in a later round.
FATES = ["arrives", "lost", "twice", "late"]
WIRES = {"good": [20, 1, 1, 1], "bad": [8, 2, 1, 1], "worse": [3, 2, 1, 2]}
QUIET = 2


# What is between two sides: the datagrams that come later, and how many were sent.
class Wire:
    def __init__(self, chance):
        self.weights, self.waiting, self.seen = WIRES[chance.choice(list(WIRES))], [], 0
        self.mixes, self.polls, self.repeats = chance.choice([0, 0.2, 0.6]), chance.choice([0, 0.2]), chance.choice([0, 0.1, 0.3])

    # The datagrams that arrive now.
    def arriving(self, chance, sent):
        arriving = [number for number in self.waiting if chance.random() < 0.4]
        self.waiting = [number for number in self.waiting if number not in arriving]
        for number in range(self.seen, sent):
            fate = chance.choices(FATES, self.weights)[0]
            arriving += {"arrives": [number], "lost": [], "twice": [number, number], "late": []}[fate]
            self.waiting += [number] if fate == "late" else []
        if self.seen and chance.random() < self.repeats:
            arriving.append(chance.randrange(self.seen))
        self.seen = sent
        if chance.random() < self.mixes:
            chance.shuffle(arriving)
        return arriving


# Both sides are given a moment and drained, and what arrives is handed over, now and then with a poll behind it.
def exchange(chance, pair, wire, now):
    for at in chance.sample("LR", 2):
        pair.perform(f"{at} time {now}")
        pair.perform(f"{at} {chance.choices(['drain', 'poll'], [9, 1])[0]}")
    for number in wire.arriving(chance, len(pair.datagrams)):
        at = OTHER[pair.datagrams[number][0]]
        pair.perform(f"{at} datagram {number} {now}")
        if chance.random() < wire.polls:
            pair.perform(f"{at} {chance.choice(['drain', 'poll'])}")


# Nothing is lost any more: at each moment all arrives, until the sides have nothing to tell and to send for some seconds.
def heal(pair, wire, now):
    first, quiet, seconds = wire.seen, 0, 0
    while quiet < QUIET and seconds < 60:
        now, seconds, told = now + SECOND, seconds + 1, len(pair.report)
        for at in "LR":
            pair.perform(f"{at} time {now}")
            pair.perform(f"{at} drain")
        is_quiet = first == len(pair.datagrams) and "out event" not in pair.report[told:]
        quiet = quiet + 1 if is_quiet else 0
        while first < len(pair.datagrams):
            arriving, first = range(first, len(pair.datagrams)), len(pair.datagrams)
            for number in arriving:
                pair.perform(f"{OTHER[pair.datagrams[number][0]]} datagram {number} {now}")
            for at in "LR":
                pair.perform(f"{at} drain")
    wire.seen = first
    return now


def random_label(chance):
    return chance.choice(["-", "61", "c3a9", "f09f98802d"])


# Of no bytes, of some, of several pieces, or of so many that two of them are not taken at once.
def random_message(chance):
    length = chance.choices([0, chance.randint(1, 9), chance.randint(1000, 3000), 20000, 70000], [40, 200, 80, 10, 3])[0]
    return chance.randbytes(length).hex() or "-"


# A side writes to a channel that is open, some messages in a row, or closes it.
def use_channel(chance, pair, closes):
    at = chance.choice("LR")
    connection = pair.peers[at].connection
    numbers = [row.number for row in connection.channels.rows if connection.open_stream(row.number) is not None]
    if not numbers and chance.random() < 0.9:
        return
    number = chance.choice(numbers) if numbers else chance.randrange(3)
    if chance.random() < closes:
        pair.perform(f"{at} closechannel {number}")
        return
    for _ in range(chance.choice([1, 1, 2, 5])):
        pair.perform(f"{at} write {number} {chance.choice(['text', 'binary'])} {random_message(chance)}")


# A script with one wire, which loses nothing in some until the channels are open. In some nothing is closed, and in some a side closes
# the connection.
def lossy_pair(chance):
    pair, wire, now = Pair(random_settings(chance) if chance.random() < 0.3 else ()), Wire(chance), 0
    at, ends = chance.choice("LR"), chance.random() < 0.1
    closes, opens = chance.choice([(0, 0.05), (0.1, 0.05), (0.25, 0.4)])
    pair.perform(f"{at} offer" + "".join(f" channel:{random_label(chance)}" for _ in range(chance.randint(1, 3))))
    pair.perform(f"{OTHER[at]} accept 0")
    pair.perform(f"{at} answer 0 1")
    if chance.random() < 0.6:
        now = heal(pair, wire, now)
    for _ in range(chance.randint(10, 30)):
        now += chance.choice([0, 1000, SECOND // 4, SECOND, SECOND])
        exchange(chance, pair, wire, now)
        if chance.random() < opens:
            pair.perform(f"{chance.choice('LR')} offer channel:{random_label(chance)}")
        for _ in range(chance.choice([0, 1, 1, 2])):
            use_channel(chance, pair, closes)
    if ends:
        pair.perform(f"{chance.choice('LR')} close")
    heal(pair, wire, now)
    return pair


# What a report tells of channels and their messages.
class Told:
    def __init__(self):
        self.rows, self.ends, self.announced = {"L": {}, "R": {}}, {}, set()
        self.sent, self.got, self.wrong = {}, {}, []

    def note_outcome(self, at, step, outcome):
        words = step.split(" ")
        if outcome == "wrote true":
            end = self.ends.get((at, words[2]))
            self.sent.setdefault(end and (at, *end), []).append((words[3], words[4]))

    def note_event(self, at, words, opened):
        if words[0] == "open":
            opened.append(words[1])
            if (at, words[1]) in self.announced:
                self.wrong.append(f"{at} was told twice that channel {words[1]} is open")
            self.announced.add((at, words[1]))
        if words[0] == "data":
            self.got.setdefault((at, words[1]), []).append((words[2], words[3]))

    # A channel's stream and generation are those of its row where it was announced.
    def note_rows(self, at, rows, opened):
        self.rows[at] = rows
        for number in opened:
            if number in rows:
                end = rows[number][:2]
                if any(other == end for (side, _), other in self.ends.items() if side == at):
                    self.wrong.append(f"{at} was told twice that stream {end[0]} is open in generation {end[1]}")
                self.ends[at, number] = end


def read_report(lines, report):
    told, blocks = Told(), report.split("step ")[1:]
    if len(blocks) != len(lines):
        told.wrong.append(f"{len(blocks)} steps are told of {len(lines)}")
        return told
    for step, block in zip(lines, blocks):
        head, *rest = block.splitlines()
        _, at, outcome = head.split(" ", 2)
        opened, rows = [], {}
        told.note_outcome(at, step, outcome)
        for line in rest:
            kind, *words = line.split(" ")
            if (kind, words[0]) == ("out", "event"):
                told.note_event(at, words[1:], opened)
            elif kind == "channel":
                rows[words[0]] = tuple(words[1:])
        told.note_rows(at, rows, opened)
    return told


# Whether an open message may be longer than a side takes, so that its channels are closed and not opened.
def may_stay_shut(settings):
    return any(name == "maxmsg" and 0 < int(number[0]) < 100 for _, _, name, *number in (line.split(" ") for line in settings))


# What is wrong with the messages and channels that a report tells of.
def judge(lines, report, settings):
    told = read_report(lines, report)
    closed = may_stay_shut(settings) or any(line.split(" ")[1] in ("close", "closechannel") for line in lines)
    for (at, number), messages in told.got.items():
        end = told.ends.get((at, number))
        if end is None:
            continue
        written = told.sent.get((OTHER[at], *end), [])
        if messages != written[: len(messages)]:
            told.wrong.append(f"{at} got messages on channel {number} that are no front of what was written")
    if closed:
        return told.wrong
    for (at, *end), messages in ((key, messages) for key, messages in told.sent.items() if key):
        numbers = [number for (side, number), other in told.ends.items() if side == OTHER[at] and other == tuple(end)]
        if len(numbers) != 1 or told.got.get((OTHER[at], numbers[0]), []) != messages:
            told.wrong.append(f"messages on stream {end[0]} of {at} did not all come")
    for at, rows in told.rows.items():
        told.wrong += [f"channel {number} of {at} is not open at last" for number, row in rows.items() if row[2] != "open"]
    if {row[0] for row in told.rows["L"].values()} != {row[0] for row in told.rows["R"].values()}:
        told.wrong.append("the sides have other streams")
    return told.wrong


def main():
    program = sys.argv[1]
    chance = random.Random(int(sys.argv[2]) if len(sys.argv) > 2 else 1)
    count = int(sys.argv[3]) if len(sys.argv) > 3 else 200
    wrong = 0
    for number in range(count):
        pair = lossy_pair(chance)
        script = pair.script()
        done = subprocess.run([program, "run"], input=script.encode(), capture_output=True, timeout=60)
        report = done.stdout.decode()
        found = judge(pair.lines, report, pair.settings)
        if (done.returncode, report) != (0, pair.report):
            found.append(f"status {done.returncode}, and another report than that of the model")
        if found:
            wrong += 1
            print(f"WRONG script {number}: {'; '.join(found)}\n{script}")
    print(f"{count} lossy scripts, {wrong} are wrong")
    return 1 if wrong else 0


if __name__ == "__main__":
    sys.exit(main())
