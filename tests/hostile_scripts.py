#!/usr/bin/env python3
"""Feeds hostile scripts to the program rtc_pair: bytes of anybody as datagrams, and texts of anybody as offers and answers.

usage: tests/hostile_scripts.py crates/rtc_pair/out/rtc_pair [SEED [COUNT [FOLDER of texts]]]

It is no part of the gate. Half of the scripts connect two sides and then give them thousands of random, cut, changed and forged
datagrams. The other half gives two sides changed offers and answers: of the rows that they have, of the stacks in
crates/rtc_examples_peers/data/offers, and of the .sdp files in the folder. Each report is compared with that of the model of
tests/random_scripts.py. Each run has to end with status 0, within a processor's time and a memory that grow with the lengths of the script
and of its report.
"""
import base64
import glob
import os
import random
import subprocess
import sys
import tempfile

from datagram_bytes import CERTIFICATES, datagram_bytes
from random_scripts import DIRECTIONS, OTHER, Pair, Row, exchange, foreign_rows, join, random_moment, random_ops, random_raw, random_settings, use_channel

MIB = 1_048_576
# The seconds and the MiB that a start may take, and each MiB of script and report besides.
START_SECONDS, EACH_SECONDS = 2.0, 4.0
START_MEMORY, EACH_MEMORY = 64, 64
DATAGRAMS, TEXTS = 1000, 200
TOP = os.path.dirname(os.path.dirname(os.path.abspath(__file__)))


def run(program, script):
    with tempfile.TemporaryFile() as source, tempfile.TemporaryFile() as sink:
        source.write(script)
        source.seek(0)
        child = subprocess.Popen([program, "run"], stdin=source, stdout=sink, stderr=subprocess.DEVNULL)
        _, status, used = os.wait4(child.pid, 0)
        child.returncode = os.waitstatus_to_exitcode(status)
        sink.seek(0)
        return child.returncode, sink.read(), used.ru_utime + used.ru_stime, used.ru_maxrss / 1024


# What is wrong with how a run ended.
def wrong_end(script, status, report, seconds, memory):
    size = (len(script) + len(report)) / MIB
    wrong = [] if status == 0 else [f"status {status}"]
    wrong += [f"took {seconds:.1f} s"] if seconds > START_SECONDS + EACH_SECONDS * size else []
    return wrong + ([f"took {memory:.0f} MiB"] if memory > START_MEMORY + EACH_MEMORY * size else [])


# A datagram that was sent, with some bytes changed, or bytes behind a first one of any kind.
def changed_bytes(chance, pair):
    if pair.datagrams and chance.random() < 0.6:
        sender, datagram = chance.choice(pair.datagrams)
        content = bytearray(datagram_bytes(sender, datagram)[:400])
        for _ in range(chance.randint(1, 3)):
            content[chance.randrange(len(content))] = chance.randrange(256)
        return bytes(content)
    first = chance.choice([chance.randrange(256), 0, 1, 21, 22, 23, 23, 128, 200])
    return bytes([first]) + chance.randbytes(chance.choice([0, 1, 2, 8, 9, 19, 20, 28, 60]))


# The model knows no other certificate than that of the other side.
def is_modelled(at, content):
    return content[:2] not in (b"\x16\1", b"\x16\2") or content[2:] == CERTIFICATES[OTHER[at]]


def give_bytes(chance, pair, at):
    content = changed_bytes(chance, pair)
    if is_modelled(at, content):
        pair.perform(f"{at} raw {random_moment(chance, pair)} {content.hex() or '-'}")


def hostile_datagrams(chance):
    pair = Pair(random_settings(chance))
    join(chance, pair, chance.choice("LR"))
    for _ in range(DATAGRAMS):
        at, kind = chance.choice("LR"), chance.random()
        if kind < 0.5:
            random_raw(chance, pair, at)
        else:
            give_bytes(chance, pair, at)
        if chance.random() < 0.2:
            pair.perform(f"{at} {chance.choice(['drain', 'poll'])}")
        if chance.random() < 0.03:
            use_channel(chance, pair, at)
        if chance.random() < 0.02:
            exchange(chance, pair, random_moment(chance, pair), [9, 1], [8, 1, 1], 0.2)
    return pair


# ---- texts


# Lines that may stand anywhere; each of them is read in some part.
STRAY_LINES = [
    b"a=ice-lite", b"a=ice-lite:1", b"a=inactive", b"a=sendonly:1", b"a=recvonly", b"a=group:BUNDLE", b"a=group:BUNDLE x0", b"a=group:LS x0",
    b"a=ice-ufrag:abcd", b"a=ice-pwd:0123456789abcdefghijkl", b"a=ice-ufrag:", b"a=ice-pwd:a b", b"a=fingerprint:md5 00", b"a=fingerprint:sha-256",
    b"a=setup:active", b"a=setup:passive", b"a=setup:holdconn", b"a=max-message-size:0", b"a=max-message-size:99999999999999999999",
    b"a=max-message-size:-1", b"a=sctp-init:", b"a=sctp-init:!!!", b"a=sctp-init:AQAAFAAAAAEAEAAA/////wAAAAI=", b"a=simulcast:send a;b recv ~c,d;e",
    b"a=simulcast:recv a;a;b", b"a=simulcast:send a send b", b"a=mid", b"a=mid:0", b"a=mid:a b", b"m=audio 9 UDP/TLS/RTP/SAVPF 0",
    b"m=application 9 UDP/DTLS/SCTP webrtc-datachannel", b"m=text 9 RTP/AVP 98", b"m=video 0 UDP/TLS/RTP/SAVPF 128", b"v=0", b"o=- 1 1 IN IP4 0.0.0.0",
    b"", b"x", b"A=mid:0", b"b=AS:30", b"s=",
]


# A line with some bytes gone and others put in.
def changed_line(chance, line):
    line = bytearray(line)
    line[chance.randrange(len(line)) if line else 0:][:1] = b""
    spot = chance.randrange(len(line) + 1)
    put = [b"", b"0", b"9" * 20, b":", b" ", b"\xc3\xa9", b"a=mid:1", b"=", b"\r", b"~", b"/", chance.randbytes(2).hex().encode()]
    line[spot:spot + chance.randrange(3)] = chance.choice(put)
    return bytes(line)


# A line with a word gone, doubled, or in place of another.
def changed_words(chance, line):
    words = line.split(b" ")
    place, word = chance.randrange(len(words)), chance.choice(words)
    words[place:place + chance.choice([0, 1, 1])] = chance.choice([[], [], [word], [b"0"]])
    return b" ".join(words)


# The lines of a text, of which some are dropped, doubled, moved or changed, and some come from elsewhere. A script takes none that is not
# UTF-8.
def changed_text(chance, lines):
    lines = list(lines)
    for _ in range(chance.choices([0, 1, 2, 6], [2, 6, 4, 1])[0]):
        place, change = chance.randrange(len(lines)), chance.random()
        if change < 0.2:
            lines.pop(place)
        elif change < 0.35:
            lines.insert(chance.randrange(len(lines)), lines[place])
        elif change < 0.5:
            lines.insert(chance.randrange(len(lines)), lines.pop(place))
        elif change < 0.7:
            lines.insert(chance.randrange(len(lines) + 1), chance.choice(STRAY_LINES))
        elif change < 0.85:
            told = [place for place, line in enumerate(lines) if line.startswith((b"m=", b"a=group"))] or [place]
            place = chance.choice(told)
            lines[place] = changed_words(chance, lines[place])
        else:
            lines[place] = changed_line(chance, lines[place])
        lines = lines or [b"v=0"]
    text = chance.choice([b"\r\n", b"\r\n", b"\n"]).join(lines) + chance.choice([b"\r\n", b""])
    return text.decode(errors="ignore").encode()


# Puts a line behind each one that begins so, as likely as is said.
def with_lines(chance, lines, front, more, likely):
    put = []
    for line in lines:
        put += [line] + ([more] if line.startswith(front) and chance.random() < likely else [])
    return put


# The chunk that a side told, or that it may tell.
def chunk_of(chance, peer):
    halves = peer.begun or peer.pending
    own = halves.own if halves else None
    return own if own is not None and chance.random() < 0.8 else chance.randbytes(chance.choice([0, 1, 20]))


# Rows of this side, or those that it offered, with new ones in an offer.
def said_rows(chance, pair, at, token, spare):
    rows = pair.rows_of(token) if token is not None else pair.peers[at].rows[:chance.choice([100, 100, 100, chance.randrange(9)])]
    said = [Row(row.mid, row.kind, row.direction and chance.choice([row.direction, chance.choice(DIRECTIONS)]), row.stopped) for row in rows]
    if chance.random() < 0.2:
        return foreign_rows(chance, said)
    if chance.random() < 0.05 and said:
        row = chance.choice(said)
        row.mid, row.kind = chance.choice([row.mid, "y"]), chance.choice(["audio", "video"])
        row.direction = row.direction or "sendrecv"
    held = {row.mid for row in said}
    return said + ([row for row in spare if row.mid not in held][:chance.choice([0, 0, 0, 1, 1, 2])] if token is None else [])


# The lines of a text in the name of the other side.
def written_lines(chance, pair, at, token, spare):
    said = said_rows(chance, pair, at, token, spare)
    lines = bytes.fromhex(pair.write_foreign(at, said, chance.choice(["actpass", "active", "passive"]))).split(b"\r\n")[:-1]
    chunk = b"a=sctp-init:" + base64.b64encode(chunk_of(chance, pair.peers[OTHER[at]]))
    lines = with_lines(chance, lines, b"a=sctp-port", chunk, 0.9 if pair.peers[at].begun else chance.choice([0, 0.8]))
    return with_lines(chance, lines, b"a=rtpmap", chance.choice([b"a=simulcast:recv h;m;l", b"a=simulcast:send h;m recv l"]), 0.1)


# The lines of a text without something that it says of its side, or with a lite agent, now and then.
def changed_side(chance, lines):
    if chance.random() < 0.1:
        front = chance.choice([b"a=ice-ufrag", b"a=ice-pwd", b"a=fingerprint", b"a=fingerprint", b"a=group", b"a=setup"])
        lines = [line for line in lines if not line.startswith(front)]
    return with_lines(chance, lines, b"t=", b"a=ice-lite", 0.1)


# A step with a changed text: an offer, or an answer to one that was made before or just now. For the most part it has rows of a side, or
# else it is one of a stack.
def give_text(chance, pair, at, stacks, spare):
    if chance.random() < 0.2:
        own_offer(chance, pair, at)
    tokens = [number for number, (owner, _) in pair.tokens.items() if owner == at]
    token = chance.choice(tokens[-1:] * 4 + tokens[-2:]) if tokens and chance.random() < 0.5 else None
    written = written_lines(chance, pair, at, token, spare) if chance.random() < 0.7 or not stacks else chance.choice(stacks)
    word = changed_text(chance, changed_side(chance, written)).hex() or "-"
    offer = token is None or chance.random() < 0.1
    pair.perform(f"{at} foreignoffer {word}" if offer else f"{at} foreignanswer {chance.choice([token, token, token, chance.randrange(9)])} {word}")


# An offer, which may restart ICE.
def own_offer(chance, pair, at):
    restart = f" restart:{chance.choice(['keep', 'new'])}" if chance.random() < 0.3 else ""
    pair.perform(f"{at} offer{random_ops(chance, len(pair.peers[at].rows))}{restart}")


# Two sides, joined or not, with offers of their own now and then.
def hostile_texts(chance, texts):
    pair = Pair(random_settings(chance) + [(at, "lite") for at in chance.choices(["", "L", "R", "LR"], [9, 2, 2, 1])[0]])
    if chance.random() < 0.5 and not any(peer.lite for peer in sizes_of(pair)):
        join(chance, pair, "L")
    stacks = chance.sample(texts, min(len(texts), chance.choice([0, 1, 2, 3])))
    spare = [Row(f"x{place}", chance.choice(["audio", "video", "app"]), chance.choice(DIRECTIONS)) for place in range(9)]
    given = 0
    while given < TEXTS and len(pair.script()) < 900_000:
        at, kind = chance.choice("LR"), chance.random()
        if kind < 0.1:
            own_offer(chance, pair, at)
        elif kind < 0.2:
            other_step(chance, pair, at)
        else:
            give_text(chance, pair, at, stacks, spare)
            given += 1
    return pair


def sizes_of(pair):
    return [peer.sizes for peer in pair.peers.values()]


# A description of the other side is accepted, or an offer is rolled back.
def other_step(chance, pair, at):
    number = max(len(pair.texts) - chance.choice([1, 1, 2, 3]), 0)
    verb = chance.choice([f"accept {number}", f"answer {max(number - chance.choice([1, 1, 2]), 0)} {number}", f"rollback {number}"])
    pair.perform(f"{at} {verb}")


# ---- runs


# What is wrong with a script, how many datagrams or texts it has, and the time and the memory of its run.
def check(program, chance, number, texts):
    pair = hostile_texts(chance, texts) if number % 2 else hostile_datagrams(chance)
    script = pair.script().encode()
    if len(script) > MIB:
        return [], 0, 0, 0
    status, out, seconds, memory = run(program, script)
    wrong = wrong_end(script, status, out, seconds, memory)
    wrong += [] if out.decode() == pair.report else ["the report is not that of the model"]
    if wrong:
        with open(f"hostile_{number}.script", "wb") as file:
            file.write(script)
        with open(f"hostile_{number}.report", "w", encoding="utf-8") as file:
            file.write(pair.report)
    return wrong, sum(" raw " in line or " foreign" in line for line in pair.lines), seconds, memory


# The lines of texts of stacks.
def stack_texts(folder):
    paths = glob.glob(os.path.join(TOP, "crates", "rtc_examples_peers", "data", "offers", "*.offer"))
    paths += glob.glob(os.path.join(folder, "*.sdp")) if folder else []
    texts = []
    for path in sorted(paths):
        with open(path, "rb") as file:
            texts.append(file.read().replace(b"\r\n", b"\n").rstrip(b"\n").split(b"\n"))
    return texts


def main():
    program = sys.argv[1]
    chance = random.Random(int(sys.argv[2]) if len(sys.argv) > 2 else 1)
    count = int(sys.argv[3]) if len(sys.argv) > 3 else 200
    texts = stack_texts(sys.argv[4] if len(sys.argv) > 4 else None)
    bad, given, most = 0, [0, 0], (0, 0)
    for number in range(count):
        wrong, steps, seconds, memory = check(program, chance, number, texts)
        given[number % 2] += steps
        most = max(most[0], seconds), max(most[1], memory)
        bad += bool(wrong)
        if wrong:
            print(f"script {number}: {'; '.join(wrong[:5])}", flush=True)
    print(f"{given[0]} datagrams and {given[1]} texts in {count} scripts, {bad} went wrong; at most {most[0]:.1f} s and {most[1]:.0f} MiB")
    return 1 if bad else 0


if __name__ == "__main__":
    sys.exit(main())
