#!/usr/bin/env python3
"""Runs the program rtc_pair on random scripts, and compares its reports with those of a model of the rules.

usage: tests/random_scripts.py crates/rtc_pair/out/rtc_pair [SEED [COUNT]]

It is no part of the gate. The model below is written from the rules of docs/FORMATS.md and not from the program: lists of
rows, what an offer and an answer say, by which cause a text is refused, and which numbers are drawn; tests/descriptions.py has how texts
are read, and tests/connections.py what moments, datagrams and polls do. A random script goes round by round for the most part, with steps in
between that cross, repeat or lose texts and datagrams.
"""
import random
import subprocess
import sys

from associations import Sizes, Unwritten, open_message
from connections import FAR_FUTURE, SECOND, Connection
from datagram_bytes import NoDatagram, data_bytes, datagram_bytes, read_datagram
from descriptions import NO_CHUNK, Line, Refused, Said, judge_group, read
from foreign_texts import foreign_text

INVERSE = {"sendrecv": "sendrecv", "sendonly": "recvonly", "recvonly": "sendonly", "inactive": "inactive"}
DIRECTIONS = list(INVERSE)
OTHER = {"L": "R", "R": "L"}
NAMES = {"audio": "Audio", "video": "Video", "app": "Application"}


def remote(told):
    return Refused(f"1 remote sdp: {told}")


def moved(mid):
    return remote(f"Changed order for m-line with mid: {mid}")


# What a fragment is drawn with.
def credentials_of(ufrag):
    return ufrag.encode(), (ufrag[1:] * 2).encode()


# The chunks by which the association of a side is started, where descriptions tell both (draft-hancke-tsvwg-snap): its own and the other
# side's, where they are there.
class Halves:
    def __init__(self):
        self.own, self.other = None, None

    def are_told(self):
        return self.own is not None and self.other is not None


# The row of the data channels has the kind "app" and no direction; it is never stopped. `layers` are how many layers the side sends and
# receives, if they are named.
class Row:
    def __init__(self, mid, kind, direction, stopped=False, remote=False, layers=None):
        self.mid, self.kind, self.direction, self.stopped, self.remote, self.layers = mid, kind, direction, stopped, remote, layers

    def copy(self):
        return Row(self.mid, self.kind, self.direction, self.stopped, self.remote, self.layers)

    def line(self):
        return Line(self.mid, self.kind, self.direction, not self.stopped, self.layers)


# What an offer has to be answered with: the number of the counter, the new rows with their SSRCs, the new channels, whether it carries a
# chunk, the rows as they were before its step, and the fragment of its restart, if it restarts ICE.
class Token:
    def __init__(self, number, added, channels, carries_chunk, undo, restart):
        self.number, self.added, self.channels, self.carries_chunk, self.undo, self.restart = number, added, channels, carries_chunk, undo, restart


class Peer:
    def __init__(self, first, sizes):
        self.sizes = sizes
        self.next, self.rows, self.staged, self.counter, self.sources = first, [], [], 0, {}
        self.undo, self.awaits = [], False  # rows as they were before ops changed them; whether an offer awaits its answer
        self.draw()  # the number of the session
        self.ufrag = self.draw_ufrag()
        self.known, self.fingerprint = None, False  # the credentials of the other side; whether its fingerprint is known
        self.connection = Connection(self.ufrag, sizes)
        self.pending, self.begun = None, None

    def draw(self):
        self.next += 1
        return self.next - 1

    def draw_ufrag(self):
        return f"u{self.draw():016x}"

    def draw_chunk(self):
        tag, window, first = self.draw() % 2**32 or 1, max(1048576, self.sizes.longest or 2**32 - 1), self.draw() % 2**32
        return b"\1\0\0\x14" + tag.to_bytes(4, "big") + window.to_bytes(4, "big") + b"\xff" * 4 + first.to_bytes(4, "big")

    def draw_source(self, earlier):
        number = self.draw() % 2**32
        used = {n for numbers in self.sources.values() for n in numbers} | set(earlier)
        while number in used:
            number = (number + 1) % 2**32
        return number

    # For each layer that is sent, or for a line without layers. For video the source of the retransmissions is drawn first.
    def draw_sources(self, row, earlier):
        drawn = []
        for _ in range((2 if row.kind == "video" else 1) * (row.layers[0] if row.layers else 1)):
            drawn.append(self.draw_source(earlier + drawn))
        return drawn

    def draw_mid(self):
        number = self.draw() % 2**32
        held = {row.mid for row in self.rows} | {row.mid for row in self.staged_rows()}
        while f"m{number}" in held:
            number = (number + 1) % 2**32
        return f"m{number}"

    def staged_rows(self):
        return [row for what, row, _ in self.staged if what == "line"]

    def add(self, kind, direction):
        mid = self.draw_mid()
        self.draw(), self.draw()  # the names of the stream and of the track
        row = Row(mid, kind, direction)
        self.staged.append(("line", row, self.draw_sources(row, [])))
        return mid

    def add_channel(self, label):
        if len(label) > 65535:
            return "bad"
        number = self.connection.channels.add()
        if not any(row.kind == "app" for row in self.rows + self.staged_rows()):
            self.staged.append(("line", Row(self.draw_mid(), "app", None), []))
        self.staged.append(("channel", number, label))
        return f"c{number}"

    # A restart of ICE takes the place of one that is staged.
    def restart(self):
        ufrag = self.draw_ufrag()
        self.staged = [entry for entry in self.staged if entry[0] != "restart"] + [("restart", ufrag, None)]
        return ufrag

    def change(self, place, direction, stop):
        if place >= len(self.rows) or self.rows[place].kind == "app":
            return "none"
        row = self.rows[place]
        if row.stopped or (not stop and row.direction == direction):
            return "false"
        if row.mid not in [mid for mid, _, _ in self.undo]:
            self.undo.append((row.mid, row.direction, row.stopped))
        row.direction, row.stopped = direction, stop
        self.staged.append(("direction", None, None))
        return "true"

    def is_started(self):
        return self.connection.streams.association.role is not None

    # This side's chunk, which is drawn where it is not there, and pending with that of the other side, if one is told.
    def tell_chunk(self, other=None):
        self.pending = self.pending or Halves()
        self.pending.own = self.draw_chunk() if self.pending.own is None else self.pending.own
        self.pending.other = self.pending.other if other is None else other
        return self.pending.own

    # The chunk that an offer of these rows tells.
    def offered_chunk(self, rows):
        if self.sizes.snap and not self.is_started() and any(row.kind == "app" for row in rows):
            return self.tell_chunk()
        return self.begun.own if self.begun else None

    # Once the association was started by the chunks of both sides, the other side tells the same one.
    def judge_chunk(self, chunk):
        if self.begun and chunk is None:
            raise remote("Missing a=sctp-init for established SNAP SCTP association")
        if self.begun and chunk != self.begun.other:
            raise remote("Changed a=sctp-init for existing SCTP association")

    # Follows a description of the other side. The chunk that is taken from it is pending; what is no chunk drops what is pending. The first
    # line of data channels starts the association, and what is pending goes.
    def follow(self, said, chunk):
        started = self.is_started()
        if chunk is NO_CHUNK:
            self.pending = None
        elif chunk is not None and not started:
            self.tell_chunk(chunk)
        told, ufrag = bool(self.pending and self.pending.are_told()), said.credentials[0].decode("latin-1")
        self.known, self.fingerprint = said.credentials, True
        self.connection.follow(ufrag, said.setup == "passive", self.has_channels(), said.longest, told)
        if self.is_started() and not started:
            self.begun, self.pending = self.pending if told else None, None

    # What a description of these rows says. Credentials and the fingerprint stand in its lines.
    def describe(self, rows, ufrag, setup, chunk):
        lines = [row.line() for row in rows]
        groups, credentials = [[line.mid for line in lines if line.port]], credentials_of(ufrag) if rows else None
        return Said(lines, groups, self.sizes.lite, credentials, bool(rows), setup, chunk, self.sizes.longest)

    # Channels alone make no offer, and supersede the token that is outstanding all the same.
    def apply(self):
        if not self.staged:
            return None
        staged, counter, undo = self.staged, self.counter, self.undo
        self.counter, self.staged, self.undo, self.awaits = counter + 1, [], [], False
        channels = [(number, label) for what, number, label in staged if what == "channel"]
        if len(channels) == len(staged):
            self.confirm(channels)
            return None
        added = [(row, sources) for what, row, sources in staged if what == "line"]
        restart = next((ufrag for what, ufrag, _ in staged if what == "restart"), None)
        rows = self.rows + [row for row, _ in added]
        chunk, self.awaits = self.offered_chunk(rows), True
        said = self.describe(rows, restart or self.ufrag, "actpass", chunk)
        return said, Token(counter, added, channels, chunk is not None, undo, restart)

    # The rows that were set or stopped for an offer are as they were, and the channels that were added with it and never confirmed go.
    def roll_back(self, token):
        self.staged, self.undo = [], []
        self.judge_token(token)
        self.counter, self.awaits = self.counter + 1, False
        for mid, direction, stopped in token.undo:
            for row in self.rows:
                if row.mid == mid:
                    row.direction, row.stopped = direction, stopped
        for number, _ in token.channels:
            self.connection.channels.cancel(number)

    def confirm(self, channels):
        for number, label in channels:
            self.connection.channels.confirm(number, label)

    def has_channels(self):
        return any(row.kind == "app" for row in self.rows)

    # The places of the new lines, where no cause refuses one.
    def judge(self, text, offer):
        new, apps = [], [place for place, row in enumerate(self.rows) if row.kind == "app"]
        for place, line in enumerate(text):
            found = [i for i, row in enumerate(self.rows) if row.mid == line.mid]
            if line.kind == "unknown":
                raise moved(line.mid)
            if line.kind == "app":
                if any(earlier.kind == "app" for earlier in text[:place]) or (apps and apps[0] != place):
                    raise moved(line.mid)
                if not apps and (found or place < len(self.rows)):
                    raise moved(line.mid)
                new += [] if apps else [place]
                continue
            if found:
                if found[0] != place or self.rows[place].kind != line.kind:
                    raise moved(line.mid)
                continue
            if place in apps:
                raise moved(line.mid)
            if place < len(self.rows) and not offer:
                raise remote(f"Answer recycles stopped m-line (not permitted per RFC 8829 §5.2.2): {line.mid}")
            if place < len(self.rows) and not self.rows[place].stopped:
                raise moved(line.mid)
            new.append(place)
        return new

    def judge_new(self, text, new, added):
        if len(new) != len(added):
            raise remote(f"Differing m-line count in offer vs answer: {len(added)} != {len(new)}")
        places = {row.mid: len(self.rows) + i for i, (row, _) in enumerate(added)}
        kinds = {row.mid: row.kind for row, _ in added}
        for place in new:
            line = text[place]
            if line.mid not in places:
                raise remote(f"Mid in answer is not in offer: {line.mid}")
            if kinds[line.mid] != line.kind and "app" in (kinds[line.mid], line.kind):
                told = "a data channel" if kinds[line.mid] == "app" else "of media type"
                raise remote(f"Answer m-line for mid ({line.mid}) is not {told}: {NAMES[line.kind]}")
            if kinds[line.mid] != line.kind:
                raise remote(f"Answer m-line for mid ({line.mid}) is of another kind")
            if places[line.mid] != place:
                raise moved(line.mid)

    def row_after(self, line, before, offer):
        if line.kind == "app":
            own = [row for row in self.rows if row.kind == "app"]
            return own[0] if own else Row(line.mid, "app", None)
        created, layers = before.remote if before else offer, before and before.layers
        if line.rejected or (before and before.stopped):
            return Row(line.mid, line.kind, "inactive", True, created, layers)
        direction = INVERSE[line.direction]
        if before and not before.remote and before.direction == "inactive" and direction == "sendonly":
            direction = "inactive"
        return Row(line.mid, line.kind, direction, False, created, layers or (line.layers and line.layers[::-1]))

    def take(self, text, offer, new, added):
        known = {row.mid: row for row in self.rows}
        after = [self.row_after(line, known.get(line.mid), offer) for line in text]
        gone = [self.rows[place].mid for place in new if place < len(self.rows)]
        sourced = set(self.sources) | {row.mid for row, _ in added}
        drawn, earlier = {}, []
        for row in after:
            if row.direction in ("sendrecv", "sendonly") and row.mid not in sourced:
                drawn[row.mid] = self.draw_sources(row, earlier)
                earlier += drawn[row.mid]
        for mid in gone:
            self.sources.pop(mid, None)
        self.sources.update({row.mid: sources for row, sources in added})
        self.sources.update(drawn)
        before = self.rows + [None] * len(text)
        self.connection.media.update(list(zip([row.copy() for row in after], before)), offer)
        self.rows = after + self.rows[len(text):]

    # An impolite side refuses an offer that collides with one of its own, which awaits its answer.
    def judge_collision(self):
        if self.sizes.polite is False and self.awaits:
            raise Refused("10 offer collides with a pending offer")

    # A token is right until this side applies something, rolls it back or is given an offer.
    def judge_token(self, token):
        if self.counter != token.number + 1:
            raise Refused("7 Changes made out of order")

    # What a text says of its side. Without a fingerprint the peer is closed.
    def judge_side(self, said, restarts):
        if self.sizes.lite and said.lite:
            raise remote("Both peers being ICE-Lite not supported")
        if said.credentials is None:
            raise remote("missing a=ice-ufrag/pwd")
        if self.known and self.known != said.credentials and not restarts:
            raise remote("Ice restart in answer without one in the preceeding offer")
        if not self.fingerprint and not said.fingerprint:
            self.connection.phase = "closed"
            raise remote("missing a=fingerprint")
        self.judge_chunk(said.chunk)
        judge_group(said)

    # An offer of the other side leaves the choice of the role, and this side then waits for the handshake. Other credentials restart ICE
    # here too. What the answer says.
    def accept_offer(self, said):
        self.staged, self.undo = [], []
        self.judge_collision()
        self.counter, self.awaits = self.counter + 1, False
        if not said.lines:
            raise remote("No m-lines in offer")
        self.judge_side(said, True)
        new = self.judge(said.lines, True)
        if self.known and self.known != said.credentials:
            self.ufrag = self.draw_ufrag()
        self.take(said.lines, True, new, [])
        self.follow(said, said.chunk)
        setup = "active" if self.connection.dtls.active else "passive"
        return self.describe(self.rows, self.ufrag, setup, self.begun.own if self.begun else None)

    # A chunk is taken from an answer where its offer carried one; an answer that tells none lets what is pending go.
    def accept_answer(self, token, said):
        self.staged, self.undo = [], []
        self.judge_token(token)
        self.awaits = False
        self.judge_side(said, token.restart)
        new = self.judge(said.lines, False)
        self.judge_new(said.lines, new, token.added)
        self.ufrag = token.restart or self.ufrag
        self.take(said.lines, False, new, token.added)
        if said.chunk is None or said.chunk is NO_CHUNK:
            self.pending = None
        self.follow(said, said.chunk if token.carries_chunk else None)
        self.confirm(token.channels)


# The bytes that a word tells.
def content_of(word):
    return b"" if word == "-" else bytes.fromhex(word)


class Pair:
    # `settings` are words behind a side, of which the last one counts; `lite`, `snap` and the roles have no number.
    def __init__(self, settings=()):
        sizes = {"L": Sizes(), "R": Sizes()}
        for at, name, *number in settings:
            kept = {"buffer": "buffered", "maxmsg": "longest", "impolite": "polite"}.get(name, name)
            setattr(sizes[at], kept, number[0] if number else name != "impolite")
        self.settings = [" ".join(["set", at, name, *map(str, number)]) for at, name, *number in settings]
        self.peers = {"L": Peer(1, sizes["L"]), "R": Peer(1000001, sizes["R"])}
        self.texts, self.tokens, self.lines, self.report = [], {}, [], ""
        self.datagrams = []

    def perform_ops(self, at, verb, words):
        peer = self.peers[at]
        peer.staged, peer.undo, answers = [], [], []
        for word in words:
            parts = word.split(":")
            if parts[0] == "dir":
                answers.append(peer.change(int(parts[1]), parts[2], False))
            elif parts[0] == "stop":
                answers.append(peer.change(int(parts[1]), "inactive", True))
            elif parts[0] == "channel":
                answers.append(peer.add_channel(content_of(parts[1])))
            elif parts[0] == "restart":
                answers.append(peer.restart())
            else:
                answers.append(peer.add(parts[0], parts[1]))
        made = peer.apply() if verb == "offer" else None
        number = "-"
        if made:
            number = len(self.texts)
            self.tokens[number] = (at, made[1])
            self.texts.append((at, True, made[0]))
        return f"ops {','.join(answers) or '-'} text {number}"

    def text_for(self, at, offer, number):
        if number < len(self.texts) and self.texts[number][:2] == (OTHER[at], offer):
            return self.texts[number][2]
        return None

    def accept(self, at, said):
        self.texts.append((at, False, self.peers[at].accept_offer(said)))
        return f"answered {len(self.texts) - 1}"

    def finish(self, at, token, said):
        self.peers[at].accept_answer(self.tokens.pop(token)[1], said)
        return "finished"

    # The rows that a text says.
    def rows_of(self, number):
        return [Row(line.mid, line.kind, line.direction, not line.port) for line in self.texts[number][2].lines]

    def has_token(self, at, token):
        return self.tokens.get(token, (None,))[0] == at

    def hand_offer(self, at, number):
        said = self.text_for(at, True, number)
        return self.accept(at, said) if said else "nosuch"

    def hand_answer(self, at, token, number):
        said = self.text_for(at, False, number)
        return self.finish(at, token, said) if said and self.has_token(at, token) else "nosuch"

    # A text in the name of the other side, which did not make it, or one that is damaged at this line.
    def write_foreign(self, at, rows, setup, damaged=None):
        other = self.peers[OTHER[at]]
        lines = foreign_text(OTHER[at], other.ufrag, other.sizes.longest, rows, setup)
        if damaged is not None:
            damaged = min(damaged, len(lines) - 1)
            lines[damaged] = "?" + lines[damaged]
        return "".join(f"{line}\r\n" for line in lines).encode().hex()

    def hand_foreign_offer(self, at, word):
        return self.accept(at, read(content_of(word)))

    def hand_foreign_answer(self, at, token, word):
        return self.finish(at, token, read(content_of(word))) if self.has_token(at, token) else "nosuch"

    def roll_back(self, at, number):
        if not self.has_token(at, number):
            return "nosuch"
        self.peers[at].roll_back(self.tokens.pop(number)[1])
        return "done"

    def hand_datagram(self, at, number, now):
        if number >= len(self.datagrams) or self.datagrams[number][0] == at:
            return "nosuch"
        self.peers[at].connection.take(self.datagrams[number][1], now)
        return "done"

    # Bytes of anybody, which come from the address of the other side.
    def hand_raw(self, at, now, word):
        try:
            datagram = read_datagram(content_of(word))
        except NoDatagram as cause:
            return f"refused 3 {cause}"
        self.peers[at].connection.take(datagram, now)
        return "done"

    def write(self, at, number, kind, word):
        connection = self.peers[at].connection
        stream = connection.open_stream(number)
        if stream is None:
            return "nosuch"
        message = content_of(word)
        try:
            taken = connection.streams.write(stream, kind == "binary", message)
        except Unwritten as cause:
            return f"refused 5 {cause}"
        return f"wrote {'true' if taken else 'false'}"

    def close_channel(self, at, number):
        connection = self.peers[at].connection
        stream = connection.open_stream(number)
        if stream is None:
            return "nosuch"
        connection.streams.close_stream(stream)
        return "done"

    def script(self):
        return "str0m-pair 1\n" + "".join(f"{line}\n" for line in self.settings + self.lines)

    # A drain ends with the first timeout.
    def poll(self, at, once):
        told, ended = [], False
        while not ended:
            met, moment, reason = self.peers[at].connection.poll()
            if met is None:
                told.append(f"timeout {'never' if moment == FAR_FUTURE else moment} {reason}")
            elif isinstance(met, str):
                told.append(f"event {met}")
            else:
                told.append(f"packet {len(self.datagrams)} {met.length}")
                self.datagrams.append((at, met))
            ended = once or met is None
        return "\n".join([f"polled {len(told)}", *(f"out {line}" for line in told)])

    def perform_act(self, at, verb, words):
        connection = self.peers[at].connection
        if verb == "accept":
            return self.hand_offer(at, int(words[0]))
        if verb == "answer":
            return self.hand_answer(at, int(words[0]), int(words[1]))
        if verb == "foreignoffer":
            return self.hand_foreign_offer(at, words[0])
        if verb == "foreignanswer":
            return self.hand_foreign_answer(at, int(words[0]), words[1])
        if verb == "raw":
            return self.hand_raw(at, int(words[0]), words[1])
        if verb == "rollback":
            return self.roll_back(at, int(words[0]))
        if verb == "datagram":
            return self.hand_datagram(at, int(words[0]), int(words[1]))
        if verb in ("poll", "drain"):
            return self.poll(at, verb == "poll")
        if verb == "time":
            connection.take_moment(int(words[0]))
            return "done"
        if verb == "write":
            return self.write(at, int(words[0]), words[1], words[2])
        if verb == "closechannel":
            return self.close_channel(at, int(words[0]))
        if verb == "close":
            connection.close()
            return "done"
        return self.perform_ops(at, verb, words)

    def perform(self, line):
        at, verb, *words = line.split(" ")
        try:
            outcome = self.perform_act(at, verb, words)
        except Refused as refusal:
            outcome = f"refused {refusal}"
        self.report += f"step {len(self.lines)} {at} {outcome}\n"
        for place, row in enumerate(self.peers[at].rows):
            if row.kind == "app":
                self.report += f"line {place} {row.mid} app\n"
                continue
            state = "stopped" if row.stopped else "live"
            side = "remote" if row.remote else "local"
            self.report += f"line {place} {row.mid} {row.kind} {row.direction} {state} {side}\n"
        connection = self.peers[at].connection
        self.report += connection.channels.report(connection.streams)
        self.lines.append(line)


# None, or some, among them sizes that an open message or its acknowledgement just fits, and the greatest ones, starts of the association
# by descriptions at both sides or at one, and roles, for the most part one of each.
def random_settings(chance):
    sizes = {"buffer": [0, 1, 13, 100, 5000, 131072, 10**9], "maxmsg": [0, 1, 12, 13, 16, 1034, 1035, 20000, 262144, 2**32 - 1]}
    names = chance.choices(list(sizes), k=chance.choice([0, 0, 1, 1, 2, 3]))
    told = chance.choice(["", "", "LR", "LR", "L", "R"])
    roles = chance.choice([[], [("L", "polite"), ("R", "impolite")], [("L", "impolite"), ("R", "polite")], [("L", "impolite")], [("R", "polite")]])
    return [(chance.choice("LR"), name, chance.choice(sizes[name])) for name in names] + [(at, "snap") for at in told] + roles


# A label, now and then the longest one or one that is too long.
def random_label(chance):
    return chance.choices(["-", "61", "c3a9", "f09f98802d", "61" * 65535, "61" * 65536], [40, 100, 40, 20, 1, 1])[0]


def random_ops(chance, rows):
    ops = ""
    for _ in range(chance.choice([0, 1, 1, 1, 2, 3])):
        place = chance.randrange(rows) if rows and chance.random() < 0.9 else chance.randrange(7)
        kind = chance.choice(["audio", "video"])
        added = f"{kind}:{chance.choice(DIRECTIONS)}"
        set_to = f"dir:{place}:{chance.choice(DIRECTIONS)}"
        channel = f"channel:{random_label(chance)}"
        ops += " " + chance.choices([added, set_to, f"stop:{place}", channel], [3 if rows else 9, 4, 2, 2])[0]
    return ops


def negotiate(chance, pair, at, verb):
    pair.perform(f"{at} {verb}{random_ops(chance, len(pair.peers[at].rows))}")


def random_round(chance, pair, at):
    offer = len(pair.texts)
    negotiate(chance, pair, at, "offer")
    if len(pair.texts) == offer:
        return
    if chance.random() < 0.3:
        negotiate(chance, pair, chance.choice("LR"), chance.choice(["stage", "stage", "offer"]))
    answer = len(pair.texts)
    pair.perform(f"{OTHER[at]} accept {offer}")
    if chance.random() < 0.2:
        negotiate(chance, pair, chance.choice("LR"), "stage")
    if len(pair.texts) > answer and chance.random() < 0.9:
        pair.perform(f"{at} answer {offer} {answer}")


# Both sides offer, and each may be handed the offer of the other one, roll its own back, or take an answer, in any order.
def random_crossing(chance, pair):
    offers = {}
    for at in chance.sample("LR", 2):
        offers[at] = len(pair.texts)
        negotiate(chance, pair, at, "offer")
    first = len(pair.texts)
    for _ in range(chance.randint(2, 7)):
        at = chance.choice("LR")
        answers = list(range(first, len(pair.texts))) or [first]
        steps = [f"accept {offers[OTHER[at]]}", f"rollback {offers[at]}", f"answer {offers[at]} {chance.choice(answers)}"]
        pair.perform(f"{at} {chance.choices(steps, [3, 2, 2])[0]}")


# A moment that a side may be given: that which was given before, a little later, or any.
def random_moment(chance, pair):
    latest = max(peer.connection.greatest for peer in pair.peers.values())
    step = chance.choices([0, 1000, SECOND // 4, SECOND, 3 * SECOND], [6, 1, 2, 2, 1])[0]
    return chance.choices([min(latest + step, FAR_FUTURE), chance.randint(0, latest), FAR_FUTURE - chance.randint(0, 2)], [400, 20, 1])[0]


# Both sides are given a moment and drained, and what they sent arrives.
def exchange(chance, pair, now, verbs, copies, late):
    first = len(pair.datagrams)
    for at in chance.sample("LR", 2):
        pair.perform(f"{at} time {now}")
        pair.perform(f"{at} {chance.choices(['drain', 'poll'], verbs)[0]}")
    arriving = [number for number in range(first, len(pair.datagrams)) for _ in range(chance.choices([1, 0, 2], copies)[0])]
    if chance.random() < late:
        chance.shuffle(arriving)
    for number in arriving:
        pair.perform(f"{OTHER[pair.datagrams[number][0]]} datagram {number} {now}")


# Some datagrams are lost, come twice or come late.
def random_exchange(chance, pair):
    for _ in range(chance.randint(1, 8)):
        exchange(chance, pair, random_moment(chance, pair), [9, 1], [8, 1, 1], 0.2)


# The sides agree on a data channel and connect, up to the exchange at which random steps begin.
def join(chance, pair, at):
    pair.perform(f"{at} offer channel:{random_label(chance)}{random_ops(chance, 0)}")
    pair.perform(f"{OTHER[at]} accept 0")
    pair.perform(f"{at} answer 0 1")
    for number in range(chance.randint(4, 14)):
        exchange(chance, pair, number * chance.choice([0, 1000]), [1, 0], [1, 0, 0], 0)


# A message of no bytes, of some, of several pieces, or of so many that two of them are not taken at once.
def random_message(chance):
    length = chance.choices([0, chance.randint(1, 9), chance.randint(1000, 3000), 100000], [3, 20, 6, 1])[0]
    return chance.randbytes(length).hex() or "-"


# A side writes to a channel, for the most part one that is open, or closes it now and then.
def use_channel(chance, pair, at):
    connection = pair.peers[at].connection
    numbers = [row.number for row in connection.channels.rows if connection.open_stream(row.number) is not None]
    number = chance.choice(numbers) if numbers and chance.random() < 0.95 else chance.randint(0, 3)
    if chance.random() < 0.15:
        pair.perform(f"{at} closechannel {number}")
    else:
        pair.perform(f"{at} write {number} {chance.choice(['text', 'binary'])} {random_message(chance)}")


# A step that hands one side a moment or a datagram, polls it, or, now and then, closes it.
def connect(chance, pair, at):
    moment, number = random_moment(chance, pair), chance.randint(0, len(pair.datagrams))
    steps = [f"time {moment}", f"datagram {number} {moment}", "poll", "drain", "close"]
    pair.perform(f"{at} {chance.choices(steps, [3, 3, 4, 3, 2])[0]}")


# Rows as a text might say them: as they are, or with a row that is new, gone, moved, changed or stopped.
def foreign_rows(chance, rows):
    rows = [row.copy() for row in rows]
    for _ in range(chance.choice([0, 1, 1, 2])):
        place, kind = chance.randrange(len(rows) + 1), chance.choice(["audio", "video", "app"])
        change = chance.choice(["new", "new", "gone", "moved", "direction", "stopped"])
        if change == "new":
            rows.append(Row(f"f{chance.randrange(4)}", kind, None if kind == "app" else chance.choice(DIRECTIONS)))
        elif place < len(rows) and change == "gone":
            rows.pop(place)
        elif place < len(rows) and change == "moved":
            rows.append(rows.pop(place))
        elif place < len(rows) and rows[place].kind != "app":
            rows[place].direction, rows[place].stopped = chance.choice(DIRECTIONS), change == "stopped"
    return rows


# An offer or an answer that the other side did not make; some can not be read.
def random_foreign(chance, pair, at):
    damaged = chance.randrange(40) if chance.random() < 0.1 else None
    offer = chance.random() < 0.6
    rows = foreign_rows(chance, pair.peers[chance.choice([at, OTHER[at]])].rows)
    if not offer and chance.random() < 0.7 and pair.tokens:
        token = chance.choice(list(pair.tokens))
        at = pair.tokens[token][0]
        rows = pair.rows_of(token) if chance.random() < 0.7 else rows
    word = pair.write_foreign(at, rows, chance.choice(["actpass", "active", "passive"]) if offer else chance.choice(["active", "passive"]), damaged)
    if offer:
        pair.perform(f"{at} foreignoffer {word}")
    else:
        pair.perform(f"{at} foreignanswer {chance.choice(list(pair.tokens) or [0])} {word}")


# Bytes that are of no kind, or that say nothing to the part of their kind, or that media reports.
STRAY = ["-", "05", "40616263", "c0ffee", "8000", "14616263", "1604", "160300", "150100", "15", "17", "170600", "1701ff", "800000", "80c80000",
         "00" * 19, "00" * 20, "0001000021", "000100002112a442" + "00" * 12, "000100022112a442" + "00" * 14, "0200" + "00" * 18]
MESSAGES = [b"", b"hi", b"\2", b"\2\2", b"\3", b"\4", open_message(b"a"), open_message(b"abc")[:-1], open_message(b"\xff"), open_message(b"") + b"x"]


# A packet of the association that nobody sent, for the most part with the next number.
def forged_packet(chance, association):
    generation = chance.choices([0, 1, chance.randrange(2**32)], [20, 3, 1])[0]
    stream = chance.choices([chance.randrange(6), 65535], [30, 1])[0]
    number = chance.choices([association.received + 1, chance.randrange(9), chance.randrange(2**64)], [20, 2, 1])[0]
    told = chance.choices([association.acknowledged, association.acknowledged + chance.randrange(4), chance.randrange(2**64)], [20, 2, 1])[0]
    kind, part = chance.choice([50, 50, 51, 53, 56, 57, 52, 0]), chance.choices([0, 1, 2], [1, 8, 1])[0]
    data = data_bytes(told, number, stream, generation, part, kind, chance.choice(MESSAGES))
    others = [b"\1", b"\2", b"\5", b"\4" + told.to_bytes(8, "big"), data[:27], data[:23] + b"\3" + data[24:]]
    return chance.choices([data, *others], [30, 2, 2, 1, 4, 1, 1])[0]


# Copies of datagrams, which either side may have sent, and some of them cut; stray bytes; and forged packets.
def random_raw(chance, pair, at):
    now, kind = random_moment(chance, pair), chance.random()
    if kind < 0.4 and pair.datagrams:
        sender, datagram = chance.choice(pair.datagrams)
        content = datagram_bytes(sender, datagram)
        if content[:1] != b"\x16" and chance.random() < 0.2:
            content = content[:chance.randrange(len(content))] if chance.random() < 0.7 else content + b"\0"
        word = content.hex() or "-"
    elif kind < 0.7:
        word = chance.choice(STRAY)
    else:
        word = "17" + forged_packet(chance, pair.peers[at].connection.streams.association).hex()
    pair.perform(f"{at} raw {now} {word}")


# `raw` says how likely steps are that give bytes of anybody, and `foreign` those that give texts of anybody.
def random_pair(chance, raw=0.0, foreign=0.0):
    pair = Pair(random_settings(chance))
    length = chance.randint(6, 100)
    if chance.random() < 0.3:
        join(chance, pair, chance.choice("LR"))
        length += len(pair.lines)
    while len(pair.lines) < length:
        at, texts = chance.choice("LR"), len(pair.texts)
        while chance.random() < raw:
            random_raw(chance, pair, at)
        if chance.random() < foreign:
            random_foreign(chance, pair, at)
        kind = chance.random()
        if kind < 0.28:
            random_round(chance, pair, at)
        elif kind < 0.35:
            random_crossing(chance, pair)
        elif kind < 0.6:
            random_exchange(chance, pair)
        elif kind < 0.65:
            connect(chance, pair, at)
        elif kind < 0.7 + 0.1 * bool(pair.peers[at].connection.channels.rows):
            use_channel(chance, pair, at)
        elif kind < 0.8:
            negotiate(chance, pair, at, chance.choice(["offer", "stage"]))
        elif kind < 0.84:
            pair.perform(f"{at} rollback {chance.randint(0, texts)}")
        elif kind < 0.92:
            pair.perform(f"{at} accept {chance.randint(0, texts)}")
        else:
            pair.perform(f"{at} answer {chance.randint(0, texts)} {chance.randint(0, texts)}")
    return pair


def main():
    program = sys.argv[1]
    chance = random.Random(int(sys.argv[2]) if len(sys.argv) > 2 else 1)
    count = int(sys.argv[3]) if len(sys.argv) > 3 else 300
    wrong = 0
    for number in range(count):
        pair = random_pair(chance, chance.choice([0, 0, 0.3]), chance.choice([0, 0, 0.2]))
        script = pair.script()
        done = subprocess.run([program, "run"], input=script.encode(), capture_output=True, timeout=60)
        if (done.returncode, done.stdout.decode()) != (0, pair.report):
            wrong += 1
            print(f"WRONG script {number}, status {done.returncode}:\n{script}")
    print(f"{count} scripts, {wrong} reports differ")
    return 1 if wrong else 0


if __name__ == "__main__":
    sys.exit(main())
