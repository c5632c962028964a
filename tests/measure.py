#!/usr/bin/env python3
"""Counts instructions of the proved programs by valgrind --tool=callgrind, so that growth is seen. It is no part of the gate.

usage: tests/measure.py [PART..]     PART is descriptions, rounds, orderly, associations, streams, channels, datagrams, boundary, forged,
lookups, frames, polls, connecting, demos, room or forwarding; without one all are counted

The programs are those that the gate left in crates/*/out/. Each figure is a difference of two runs, so that the start of the
program is not in it. docs/PERFORMANCE.md has the tables.
"""
import os
import re
import subprocess
import sys
import tempfile
import time

TOP = os.path.dirname(os.path.dirname(os.path.abspath(__file__)))
OFFER_HEAD = b"v=0\r\no=- 4611731400430051336 2 IN IP4 127.0.0.1\r\ns=-\r\nt=0 0\r\na=extmap-allow-mixed\r\na=msid-semantic: WMS\r\n"


def program(name):
    return os.path.join(TOP, "crates", name, "out", name)


def count(words, given, files={}, status=0):
    with tempfile.TemporaryDirectory() as folder:
        for name, bytes_of in files.items():
            with open(os.path.join(folder, name), "wb") as file:
                file.write(bytes_of)
        out = os.path.join(folder, "callgrind")
        done = subprocess.run(
            ["valgrind", "--tool=callgrind", f"--callgrind-out-file={out}", *words],
            input=given, capture_output=True, timeout=1200, cwd=folder,
        )
        if done.returncode != status:
            sys.exit(f"measure: {words[0]} ended with status {done.returncode}: {done.stdout[:200]!r}")
        return int(re.search(rb"Collected : (\d+)", done.stderr)[1]), done.stdout


# What of this is not in calls of the allocator. Those walk over free blocks, and a block that grows is extended in place or copied; both
# depend on the whole heap.
def count_beside_allocator(words, given):
    with tempfile.TemporaryDirectory() as folder:
        out = os.path.join(folder, "callgrind")
        run = ["valgrind", "--tool=callgrind", f"--callgrind-out-file={out}", *words]
        report = subprocess.run(run, input=given, capture_output=True, timeout=1200, check=True).stdout
        whole, in_calls = (told_by(out, way) for way in ("no", "yes"))
        allocator = sum(cost for name, cost in in_calls if re.search(rb":rattle_(alloc|dealloc|realloc)", name))
        if allocator == 0:
            sys.exit(f"measure: no call of the allocator is seen in {words[0]}")
        return sum(cost for _, cost in whole) - allocator, report


# What each function costs, with what it calls or without.
def told_by(out, with_calls):
    words = ["callgrind_annotate", "--threshold=100", f"--inclusive={with_calls}", out]
    told = subprocess.run(words, capture_output=True, check=True).stdout
    rows = re.findall(rb"^ *([\d,]+) (?:\([^)]*\))? *(\S*:.*)$", told, re.M)
    return [(name, int(cost.replace(b",", b""))) for cost, name in rows]


# How many blocks a program asks for.
def blocks(words, given):
    done = subprocess.run(["valgrind", *words], input=given, capture_output=True, timeout=1200)
    if done.returncode != 0:
        sys.exit(f"measure: {words[0]} ended with status {done.returncode}")
    return int(re.search(rb"total heap usage: ([0-9,]+) allocs", done.stderr)[1].replace(b",", b""))


# The m-lines of a browser's offer, with further mids.
def media(mid):
    audio = [b"m=audio 9 UDP/TLS/RTP/SAVPF 111 63 9 0 8 13 110 126", b"c=IN IP4 0.0.0.0", b"a=rtcp:9 IN IP4 0.0.0.0"]
    audio += [b"a=ice-ufrag:4ZcD", b"a=ice-pwd:2/1muCWoOi3uLifh0NuRHlgh", b"a=ice-options:trickle"]
    audio += [b"a=fingerprint:sha-256 " + b":".join([b"BA"] * 32), b"a=setup:actpass", b"a=mid:%d" % mid]
    audio += [b"a=extmap:1 urn:ietf:params:rtp-hdrext:ssrc-audio-level", b"a=extmap:4 urn:ietf:params:rtp-hdrext:sdes:mid"]
    audio += [b"a=sendrecv", b"a=msid:s%d t%d" % (mid, mid), b"a=rtcp-mux", b"a=rtpmap:111 opus/48000/2"]
    audio += [b"a=rtcp-fb:111 transport-cc", b"a=fmtp:111 minptime=10;useinbandfec=1", b"a=rtpmap:63 red/48000/2", b"a=fmtp:63 111/111"]
    audio += [b"a=rtpmap:9 G722/8000", b"a=rtpmap:0 PCMU/8000", b"a=rtpmap:8 PCMA/8000", b"a=rtpmap:13 CN/8000"]
    audio += [b"a=rtpmap:110 telephone-event/48000", b"a=rtpmap:126 telephone-event/8000", b"a=ssrc:%d cname:c%d" % (mid + 1, mid)]
    return b"\r\n".join(audio) + b"\r\n"


def offer(size):
    lines, mids = [], []
    while sum(map(len, lines)) + len(OFFER_HEAD) < size:
        mids.append(len(mids))
        lines.append(media(mids[-1]))
    return OFFER_HEAD + b"a=group:BUNDLE " + b" ".join(b"%d" % mid for mid in mids) + b"\r\n" + b"".join(lines)


# The m-lines of Chromium's offer over other stacks, which have all codecs that it knows, one after another with further mids. The text
# itself is the first of them.
def chromium(size):
    with open(os.path.join(TOP, "crates", "rtc_examples_peers", "data", "offers", "chromium_audio_video.offer"), "rb") as file:
        text = file.read()
    if size <= len(text):
        return text
    head, *parts = re.split(rb"(?=^m=)", text, flags=re.M)
    lines = []
    while sum(map(len, lines)) + len(head) < size:
        lines.append(re.sub(rb"a=mid:\d+", b"a=mid:%d" % len(lines), parts[len(lines) % len(parts)]))
    return re.sub(rb"BUNDLE [0-9 ]+", b"BUNDLE " + b" ".join(b"%d" % mid for mid in range(len(lines))), head) + b"".join(lines)


def descriptions():
    start, _ = count([program("rtc_sdp_text"), "offer"], OFFER_HEAD)
    for what, made in (("Of a browser's form", offer), ("Of Chromium, with all its codecs", chromium)):
        print(f"\n{what}:\n\n| Read | Written | Instructions | A byte read | A byte read or written |\n|---|---|---|---|---|")
        for size in (1_000, 16_000, 64_000, 256_000, 1_000_000):
            given = made(size)
            cost, written = count([program("rtc_sdp_text"), "offer"], given)
            cost -= start
            both = len(given) + len(written)
            print(f"| {len(given):,} | {len(written):,} | {cost:,} | {cost / len(given):.1f} | {cost / both:.1f} |")
    words = [program("rtc_sdp_text"), "offer"]
    print(f"\nBlocks of Chromium's offer: {blocks(words, chromium(0)) - blocks(words, OFFER_HEAD)}")


# A round that adds n lines, and a second one in which each text names all of them.
def script(lines, second):
    text = "str0m-pair 1\nL offer" + " audio:sendrecv" * lines + "\nR accept 0\nL answer 0 1\n"
    return (text + ("L offer dir:0:sendonly\nR accept 2\nL answer 2 3\n" if second else "")).encode()


def rounds():
    print("| Lines | First round | A line | Second round | A line |\n|---|---|---|---|---|")
    start, _ = count([program("rtc_pair"), "run"], b"str0m-pair 1\n")
    for lines in (1, 3, 10, 30, 100, 300, 3_000, 10_000):
        one, _ = count([program("rtc_pair"), "run"], script(lines, False))
        two, _ = count([program("rtc_pair"), "run"], script(lines, True))
        print(f"| {lines:,} | {one - start:,} | {(one - start) // lines:,} | {two - one:,} | {(two - one) // lines:,} |")


# A first round, and so many more by both sides in turn, each with one op: a direction, which turns the line since it was the other
# side's; a stop of a line that is live; or a restart of ICE.
def orderly_script(lines, rounds, kind):
    text = "str0m-pair 1\nL offer" + " audio:sendrecv" * lines + "\nR accept 0\nL answer 0 1\n"
    for number in range(rounds):
        at, other, offer = "LR"[number % 2], "RL"[number % 2], 2 * number + 2
        op = {"directions": "dir:0:sendonly", "stops": f"stop:{number + 1}", "restarts": "restart:keep"}[kind]
        text += f"{at} offer {op}\n{other} accept {offer}\n{at} answer {offer} {offer + 1}\n"
    return text.encode()


# What a round of a long script costs, on lines that no round adds to.
def orderly():
    print("| Rounds that | Lines | Rounds | Instructions | A round | A round and line |\n|---|---|---|---|---|---|")
    for kind, lines in (("directions", 10), ("restarts", 10), ("stops", 100)):
        start, _ = count([program("rtc_pair"), "run"], orderly_script(lines, 0, kind))
        for rounds in (1, 10, 30, 60):
            cost, report = count([program("rtc_pair"), "run"], orderly_script(lines, rounds, kind))
            if report.count(b" finished\n") != rounds + 1:
                sys.exit(f"measure: a round of {rounds} that are {kind} did not finish")
            print(f"| {kind} | {lines} | {rounds} | {cost - start:,} | {(cost - start) // rounds:,} | {(cost - start) // rounds // lines:,} |")


# The line that asks the program of parts for some work, behind what that is to answer, and what it costs.
def work(answer, *words):
    return f"work {answer} {' '.join(map(str, words))}\n".encode()


def count_work(answer, *words):
    return count([program("rtc_examples_parts")], work(answer, *words))[0]


# Two plain associations: a message over one of so many open streams, and streams that are opened, used and reset in turn. The answer is
# the length of the message, or the number of streams.
def associations():
    def cost(word, amount, *more):
        return count_work(amount, "association", word, amount, *more)

    print("| Open streams | Bytes | Instructions over those for 0 bytes | A byte |\n|---|---|---|---|")
    for streams in (1, 100, 10_000):
        start = cost("message", 0, streams)
        for size in (16_384, 262_144):
            more = cost("message", size, streams) - start
            print(f"| {streams:,} | {size:,} | {more:,} | {more / size:.1f} |")
    print("\n| Streams with a piece to come each | Instructions | A stream |\n|---|---|---|")
    start = cost("pieces", 0)
    for streams in (300, 3_000, 30_000):
        more = cost("pieces", streams) - start
        print(f"| {streams:,} | {more:,} | {more // streams:,} |")
    print("\n| Streams reset one after another | Instructions | A stream | Greatest memory, KiB |\n|---|---|---|---|")
    start = cost("resets", 0)
    for streams in (300, 3_000, 30_000):
        more = cost("resets", streams) - start
        most = memory([program("rtc_examples_parts")], work(streams, "association", "resets", streams))
        print(f"| {streams:,} | {more:,} | {more // streams:,} | {most:,} |")


# A line `work` of the program of peers, and what it costs.
def count_peers(how, channels, messages, size):
    line = f"work {how} {channels} {messages} {size}\n".encode()
    cost, told = count([program("rtc_examples_peers")], line)
    if told != b"agrees " + line:
        sys.exit(f"measure: {line} ended with {told!r}")
    return cost


# A drained peer with so many media lines and open channels that is polled so often, and what that costs.
def count_rest(lines, channels, polls):
    line = f"resting {lines} {channels} 0 {polls}\n".encode()
    cost, told = count([program("rtc_examples_peers")], line)
    if told != b"agrees " + line:
        sys.exit(f"measure: {line} ended with {told!r}")
    return cost


# Channels that two peers open at once, a moment that is given to both and at which nothing is due, and channels that are given streams. The
# answer of the latter is the stream of the last channel.
def streams():
    print("| Open channels | Opening them at once | A channel | A moment with nothing due, at both |\n|---|---|---|---|")
    start = count_peers("one", 1, 0, 0)
    for channels in (10, 100, 1_000, 10_000):
        opened = count_peers("idle", channels, 1, 0)
        idle = (count_peers("idle", channels, 11, 0) - opened) // 10
        more = opened - idle - start
        print(f"| {channels:,} | {more:,} | {more // (channels - 1):,} | {idle:,} |")
    print("\n| Channels given streams at once | Instructions | A channel |\n|---|---|---|")
    for channels in (100, 1_000, 10_000, 30_000):
        more = count_work(2 * (channels - 1), "channels", "allocate", channels, 1) - count_work(0, "channels", "allocate", channels, 0)
        print(f"| {channels:,} | {more:,} | {more // channels:,} |")


# A message through two peers over parts in memory, by the last of so many open channels, until it is read and acknowledged; the longest
# one is as long as what a peer buffers. What the program itself takes to make the message is not in the figures. A packet has at most
# 1034 bytes of it. Then a message over each of so many channels, in turn.
def channels():
    def cost(open_channels, messages, size):
        return count_peers("one", open_channels, messages, size)

    print("| Open channels | Bytes | Instructions | A byte | A packet |\n|---|---|---|---|---|")
    for open_channels in (1, 10, 100, 1_000, 10_000):
        for size in (1_024, 131_072, 262_144):
            more = cost(open_channels, 1, size) - cost(open_channels, 0, size)
            print(f"| {open_channels:,} | {size:,} | {more:,} | {more / size:.1f} | {more // -(-size // 1034):,} |")
    print("\n| Open channels | A message of 1,024 bytes over each, in turn | A message |\n|---|---|---|")
    for open_channels in (10, 100, 1_000):
        more = count_peers("turn", open_channels, open_channels, 1_024) - count_peers("turn", open_channels, 0, 1_024)
        print(f"| {open_channels:,} | {more:,} | {more // open_channels:,} |")


# Fifty messages by the last of so many open channels, one after another: of each a datagram there, and one back that acknowledges it. Each
# of the hundred is handed in, and its peer drained. The writes are in the figures.
def datagrams():
    print("| Open channels | A datagram that is handed in and drained |\n|---|---|")
    for open_channels in (1, 100):
        more = count_peers("one", open_channels, 50, 1_024) - count_peers("one", open_channels, 0, 1_024)
        print(f"| {open_channels:,} | {more // 100:,} |")


# A message through two peers over one channel: in Rattle, and the same over libgondyru, which tools/build-c built, from C and from Python.
# The C library is not to copy by an instruction that valgrind counts once for each byte.
def boundary():
    many, archive = 10, os.path.join(TOP, "crates", "rtc_c", "out", "libgondyru.a")
    os.environ["GLIBC_TUNABLES"] = "glibc.cpu.x86_rep_movsb_threshold=1000000"
    with tempfile.TemporaryDirectory() as folder:
        from_c = os.path.join(folder, "messages")
        source, include = os.path.join(TOP, "tests", "c", "messages.c"), os.path.join(TOP, "include")
        subprocess.run(["cc", "-std=c11", "-O2", f"-I{include}", source, archive, "-o", from_c], check=True)
        from_python = [sys.executable, os.path.join(TOP, "tests", "python_messages.py")]
        print("| Bytes | In Rattle, a message | From C | From Python |\n|---|---|---|---|")
        for size in (1_024, 65_536):
            costs = [count_peers("one", 1, many, size) - count_peers("one", 1, 0, size)]
            for words in ([from_c], from_python):
                costs.append(count([*words, str(many), str(size)], b"")[0] - count([*words, "0", str(size)], b"")[0])
            print(f"| {size:,} | " + " | ".join(f"{cost // many:,}" for cost in costs) + " |")


# The greatest memory of a program, in KiB. Its parent is small, since the memory of a parent before the program starts counts too.
def memory(words, given=b""):
    done = subprocess.run(["/usr/bin/time", "-f", "%M", *words], input=given, capture_output=True)
    if done.returncode != 0:
        sys.exit(f"measure: {words[0]} ended with status {done.returncode}")
    return int(done.stderr)


# Packets that somebody else made, each with a message of another generation to come.
def forged():
    print("| Forged packets | Greatest memory, KiB |\n|---|---|")
    for packets in (1, 1_000, 100_000):
        print(f"| {packets:,} | {memory([program('rtc_examples_parts')], work(1, 'association', 'forged', packets)):,} |")


# Look-ups of the last of so many entries of a plain part.
def lookups():
    def cost(subject, entries, times):
        return count_work(times, "lookups", subject, entries, times)

    print("| Entries | An ssrc in use | A stream by line and layer | The address of a candidate |\n|---|---|---|---|")
    for entries in (10, 100, 1_000, 10_000):
        costs = []
        for subject in ("sources", "streams", "candidates"):
            costs.append((cost(subject, entries, 10_000) - cost(subject, entries, 0)) / 10_000)
        print(f"| {entries:,} | " + " | ".join(f"{each:.1f}" for each in costs) + " |")


# Frames of n bytes, passed from one connection to another, each fed whole or a byte at a time. The words of the script are longer
# where pieces are short, so that a script of empty pieces is counted beside it.
def calls_of(size, count, piece):
    body = b"\x03\x01b" + b"x" * (size - 7)
    stream = (len(body).to_bytes(4, "big") + body) * count
    cuts = range(0, len(stream), piece)
    lines = [f"feed 0 {stream[at : at + piece].hex()}\n" for at in cuts]
    head = "str0m-gate 1\njoin a\njoin b\n"
    return (head + "".join(lines)).encode(), (head + "".join("feed 0 -\n" for _ in cuts)).encode(), len(stream)


def frames():
    print("| Bytes of a frame | Frames | Fed | Instructions | A byte | Of empty pieces | A byte over those |\n|---|---|---|---|---|---|---|")
    start, _ = count([program("rtc_gate"), "run"], b"str0m-gate 1\njoin a\njoin b\n")
    for size, number in ((100, 100), (100, 600), (65_540, 1)):
        for how, piece in (("whole", size), ("byte by byte", 1)):
            given, empty, fed = calls_of(size, number, piece)
            cost, _ = count([program("rtc_gate"), "run"], given)
            base, _ = count([program("rtc_gate"), "run"], empty)
            print(f"| {size:,} | {number} | {how} | {cost - start:,} | {(cost - start) / fed:.1f} | {base - start:,} | {(cost - base) / fed:.1f} |")


# Two peers that negotiated n lines. The drain of the answering one tells an event a line; a poll behind it tells a deadline. Each step
# reports all lines of its peer, so that as many steps that find no datagram are counted beside them.
def polls():
    def cost(lines, steps):
        text = "str0m-pair 1\nL offer" + " audio:sendrecv" * lines + "\nR accept 0\nL answer 0 1\n" + steps
        return count([program("rtc_pair"), "run"], text.encode())[0]

    nothing = "R datagram 99 0\n"
    print("| Lines | A drain that tells of all | A line | A poll with nothing to tell |\n|---|---|---|---|")
    for lines in (1, 10, 100, 1_000):
        drained = cost(lines, "R drain\n") - cost(lines, nothing)
        polled = cost(lines, "R drain\n" + "R poll\n" * 10) - cost(lines, "R drain\n" + nothing * 10)
        print(f"| {lines:,} | {drained:,} | {drained // lines:,} | {polled // 10:,} |")
    print("\n| Media lines | Open channels | A poll of a drained peer |\n|---|---|---|")
    for lines, channels in ((1, 1), (10_000, 1), (1, 1_000)):
        more = count_rest(lines, channels, 1_000) - count_rest(lines, channels, 0)
        print(f"| {lines:,} | {channels:,} | {more / 1_000:.1f} |")


# The steps by which two peers connect: a check each way and its response, the hello of DTLS, the certificate and the finish.
CONNECTING = "L time 0|L drain|R datagram 0 0|R drain|L datagram 1 0|L drain|L datagram 2 0|L drain|R datagram 4 0|R drain".split("|")
CONNECTING += "R datagram 3 0|R drain|L datagram 5 0|L drain|R datagram 6 0|R drain".split("|")


# Two peers that negotiated n lines and told of them, until both are connected. Each step reports all lines of its peer, so that as many
# steps that find no datagram are counted beside them.
def connecting():
    print("| Lines | Until both are connected | The reports of as many steps |\n|---|---|---|")
    for lines in (1, 10, 100, 1_000):
        head = script(lines, False) + b"R drain\nL drain\n"
        start, _ = count([program("rtc_pair"), "run"], head)
        still, _ = count([program("rtc_pair"), "run"], head + b"".join(b"%c datagram 9 0\n" % step[0].encode() for step in CONNECTING))
        cost, report = count([program("rtc_pair"), "run"], head + "".join(f"{step}\n" for step in CONNECTING).encode())
        if report.count(b"out event connected\n") != 2:
            sys.exit("measure: the peers are not connected")
        print(f"| {lines:,} | {cost - still:,} | {still - start:,} |")


# A demo adds a line in each round, so that a round costs more as they grow.
def demos():
    print("| Rounds | Instructions | A line of its rounds | Wall time | Greatest memory |\n|---|---|---|---|---|")
    start, _ = count([program("rtc_pair"), "run"], b"str0m-pair 1\n")
    for rounds in (1, 10, 30, 100):
        words = [program("rtc_pair"), "demo", str(rounds), "7"]
        cost, told = count(words, b"")
        if f"finished {rounds}\n".encode() not in told:
            sys.exit(f"measure: a round of a demo of {rounds} did not finish")
        times = []
        for _ in range(5):
            begin = time.perf_counter()
            subprocess.run(words, stdin=subprocess.DEVNULL, capture_output=True, check=True)
            times.append(time.perf_counter() - begin)
        lines = rounds * (rounds + 1) // 2
        print(f"| {rounds} | {cost - start:,} | {(cost - start) // lines:,} | {min(times):.3f} s | {memory(words):,} KiB |")


# What connects a member of a room and opens its line, the number of the member aside: the datagrams of both peers are numbered together.
JOINING = "do R offer channel:61|do L accept 0|do R answer 0 1|TURN|do R datagram 0 0|arrive 1 0|TURN|do R datagram 2 0|arrive 3 0|TURN"
JOINING += "|arrive 4 0|TURN|do R datagram 5 0|TURN|arrive 6 0|arrive 7 0|TURN|do R datagram 8 0|TURN|arrive 9 0|TURN"
JOINING += "|do R datagram 10 0|do R datagram 11 0|TURN|arrive 12 0|TURN"
# Both peers of the member are given a moment and drained.
TURN = "do L time 0|do L drain|do R time 0|do R drain"
# It says something, which the hub hears and acknowledges.
SAYING = "do R write 0 text 6869|TURN|arrive 13 0|TURN|do R datagram 14 0|TURN"


# Members of rooms, each of whom connects, says something once, and is sent what each other one of its room said.
def room_script(members, rooms):
    lines = ["str0m-room 1"] + [f"join {k % rooms}" for k in range(members)]
    for part in (JOINING, SAYING):
        for k in range(members):
            lines += [f"{k} {step}" for step in part.replace("TURN", TURN).split("|")]
    for k in range(members):
        others = members // rooms - 1
        heard = [f"do R datagram {15 + i} 0" for i in range(others)]
        lines += [f"{k} {step}" for step in ["forward", "do L time 0", "do L drain", *heard, "do R drain"]]
    return "".join(f"{line}\n" for line in lines).encode()


# What the members of rooms may take at most, in seconds and in KiB.
ROOM_SECONDS, ROOM_MEMORY = 5, 65_536


def room():
    print("| Members | Rooms | Bytes of the script | Wall time | Greatest memory |\n|---|---|---|---|---|")
    for members, rooms in ((32, 2), (256, 16)):
        words, given = [program("rtc_room"), "run"], room_script(members, rooms)
        if len(given) > 1_048_576:
            sys.exit("measure: the script of rooms is too long")
        times = []
        for _ in range(5):
            begin = time.perf_counter()
            report = subprocess.run(words, input=given, capture_output=True, check=True).stdout
            times.append(time.perf_counter() - begin)
        heard = report.count(b"out event data 0 binary ")
        if heard != members * (members // rooms - 1) or b"nomember" in report or b"putout" in report:
            sys.exit(f"measure: the members of rooms heard {heard} messages")
        taken, most = min(times), memory(words, given)
        print(f"| {members} | {rooms} | {len(given):,} | {taken:.3f} s | {most:,} KiB |")
        if taken > ROOM_SECONDS or most > ROOM_MEMORY:
            sys.exit(f"measure: the members of rooms may take {ROOM_SECONDS} s and {ROOM_MEMORY:,} KiB")


# A forward of ten messages to member 1 of a room of so many, of which member 0 says all, behind so many batches that were forwarded, heard
# and acknowledged. What calls of the allocator take is not in it.
def forward_cost(members, batches, size):
    def cost(forwards):
        line = f"rooms {members} {batches} {size} {forwards}\n".encode()
        cost, told = count_beside_allocator([program("rtc_examples_faulty")], line)
        if told != b"agrees " + line:
            sys.exit(f"measure: {line} ended with {told!r}")
        return cost

    return cost(1) - cost(0)


# The dearest forward costs at most so much more than the cheapest.
FORWARD_SHARE = 0.01


# With few members and with many, and after few messages and after many, a forward costs the same.
def forwarding():
    print("| Members | Messages before | A forward of ten |\n|---|---|---|")
    costs = []
    for members, batches, size in ((2, 1, 10), (256, 1, 10), (2, 20, 500)):
        costs.append(forward_cost(members, batches, size))
        print(f"| {members} | {batches * size:,} | {costs[-1]:,} |")
    if max(costs) > (1 + FORWARD_SHARE) * min(costs):
        sys.exit("measure: a forward costs more with more members or more messages")


def main():
    parts = {
        "descriptions": descriptions, "rounds": rounds, "orderly": orderly, "associations": associations,
        "streams": streams, "channels": channels, "datagrams": datagrams, "boundary": boundary, "forged": forged, "lookups": lookups,
        "frames": frames, "polls": polls, "connecting": connecting, "demos": demos, "room": room, "forwarding": forwarding,
    }
    wanted = sys.argv[1:] or list(parts)
    if any(name not in parts for name in wanted):
        sys.exit(__doc__)
    for name in wanted:
        print(f"\n## {name}\n")
        parts[name]()


if __name__ == "__main__":
    main()
