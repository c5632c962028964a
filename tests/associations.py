"""A model of data channels over plain associations, for tests/connections.py.

It is written from the rules of docs/FORMATS.md and of the READMEs of rtc_assoc_state, rtc_assoc_end, rtc_sctp_entries, rtc_sctp and
rtc_channels, and not from the program. All channels are announced by open messages.
"""
FAR_FUTURE = 2**64 - 1
SECOND = 1_000_000_000
PIECE = 1062 - 28
ANY_LENGTH = 2**32 - 1
OPENING = "opening"
ACKNOWLEDGEMENT = b"\x02"


# A write that a stream refuses.
class Unwritten(Exception):
    pass


# What a side is set to: how many bytes may be buffered, the longest message that it takes, where 0 stands for any length, whether its
# association may be started by descriptions, whether it is the polite one where two offers cross, if it has a role, and whether its agent
# is lite.
class Sizes:
    def __init__(self, buffered=131072, longest=262144, snap=False, polite=None, lite=False):
        self.buffered, self.longest, self.snap, self.polite, self.lite = buffered, longest, snap, polite, lite


# A packet of the association: what it says, and how many bytes it has.
class Packet:
    def __init__(self, kind, length, acknowledged=0, number=0, item=None):
        self.kind, self.length, self.acknowledged, self.number, self.item = kind, length, acknowledged, number, item


# A piece of a message of a kind, its last piece or a close, of a generation of a stream.
class Item:
    def __init__(self, stream, generation, part, content=b"", kind=None):
        self.stream, self.generation, self.part, self.content, self.kind = stream, generation, part, content, kind


# What came of messages is kept by its generation: the pieces of one, and the whole ones in order.
class Stream:
    def __init__(self, generation, came=None, unread=None):
        self.generation, self.there, self.close, self.finished = generation, False, None, False
        self.came, self.unread = came or {}, unread or []

    # What came of the current generation is dropped.
    def forget(self):
        self.came.pop(self.generation, None)
        self.unread = [message for message in self.unread if message[0] != self.generation]

    # The first message of the current generation, if there is one.
    def read(self):
        for place, message in enumerate(self.unread):
            if message[0] == self.generation:
                return self.unread.pop(place)[1:]
        return None


def after(moment, span):
    return min(moment + span, FAR_FUTURE)


# One end. `role` is None before a start.
class Association:
    def __init__(self):
        self.role, self.connected, self.shut, self.lost, self.longest = None, False, False, False, None
        self.told = False
        self.now, self.hello_sent, self.items_sent = 0, 0, 0
        self.acknowledged, self.items, self.received, self.streams = 0, [], 0, {}
        self.events, self.packets = [], []

    def stream(self, number):
        return self.streams.setdefault(number, Stream(0))

    def is_ending(self):
        return self.shut or self.lost

    # `longest` is what the other end told, by which a message is too long for it. Where descriptions told the chunks of both ends, this end
    # is connected at once, without an event, and neither says hello nor answers it.
    def start(self, client, now, longest, told):
        self.role, self.now, self.longest = "client" if client else "server", now, longest or ANY_LENGTH
        self.told = self.connected = told
        if client and not told:
            self.say_hello(now)

    def say_hello(self, now):
        self.hello_sent = now
        self.packets.append(Packet("hello", 1))

    def waits(self):
        return self.role == "client" and not self.connected

    def queue(self, first, items):
        for place, item in enumerate(items):
            self.packets.append(Packet("data", 28 + len(item.content), self.received, first + place, item))

    def send(self, now, items):
        self.queue(self.acknowledged + len(self.items) + 1, items)
        self.items += items
        self.items_sent = now

    # Whether a stream is there and was not closed here, so that it takes a message or a close.
    def is_open(self, number):
        stream = self.stream(number)
        return stream.there and stream.close is None and not self.is_ending()

    def write(self, number, message, kind=OPENING):
        if not self.is_open(number) or len(message) > self.longest:
            return False
        pieces = [message[at:at + PIECE] for at in range(0, len(message), PIECE)] or [b""]
        stream = self.stream(number)
        parts = ["more"] * (len(pieces) - 1) + ["last"]
        self.send(self.now, [Item(number, stream.generation, part, piece, kind) for part, piece in zip(parts, pieces)])
        return True

    # The bytes of the messages of a stream that are not acknowledged.
    def buffered(self, number):
        return sum(len(item.content) for item in self.items if item.stream == number)

    def close_stream(self, number):
        if not self.is_open(number):
            return False
        self.send_close(self.now, number)
        return True

    def send_close(self, now, number):
        stream = self.stream(number)
        self.send(now, [Item(number, stream.generation, "close")])
        stream.close = "queued"
        stream.forget()

    def shut_down(self):
        self.shut = True
        self.packets.append(Packet("shutdown", 1))

    def wake(self):
        moments = [after(self.hello_sent, SECOND)] if self.waits() else []
        moments += [after(self.items_sent, SECOND)] if self.items else []
        return min(moments, default=None)

    def take_moment(self, now):
        self.now = now
        if self.waits() and after(self.hello_sent, SECOND) <= now:
            self.say_hello(now)
        if self.items and after(self.items_sent, SECOND) <= now:
            self.items_sent = now
            self.queue(self.acknowledged + 1, self.items)

    def take(self, packet, now):
        if packet.kind == "hello" and self.role == "server" and not self.told:
            self.events += [] if self.connected else [("connected", None)]
            self.connected = True
            self.packets.append(Packet("welcome", 1))
        if packet.kind in ("welcome", "data") and self.waits():
            self.connected = True
            self.events.append(("connected", None))
        if packet.kind in ("data", "acknowledgement"):
            self.take_acknowledgement(packet.acknowledged)
        if packet.kind == "data":
            self.take_item(packet.number, packet.item, now)
            self.packets.append(Packet("acknowledgement", 9, self.received))
        if packet.kind == "shutdown":
            self.lost = True
            self.events.append(("lost", None))
        self.now = now

    def take_acknowledgement(self, number):
        while self.items and self.acknowledged < number:
            item, stream = self.items.pop(0), None
            self.acknowledged += 1
            stream = self.stream(item.stream)
            if item.part == "close" and stream.close == "queued":
                stream.close = "acknowledged"
                self.reset_if_both_closed(item.stream)

    def reset_if_both_closed(self, number):
        stream = self.stream(number)
        if stream.finished and stream.close == "acknowledged":
            self.streams[number] = Stream(stream.generation + 1, stream.came, stream.unread)
            self.events.append(("reset", number))

    def take_item(self, number, item, now):
        stream = self.stream(item.stream)
        if number != self.received + 1 or self.is_ending():
            return
        self.received, stream.there = number, True
        if item.part == "close" and item.generation == stream.generation:
            stream.finished = True
            stream.forget()
            self.events.append(("finished", item.stream))
            if stream.close is None:
                self.send_close(now, item.stream)
            self.reset_if_both_closed(item.stream)
        elif item.part != "close" and (item.generation > stream.generation
                                       or item.generation == stream.generation and stream.close is None):
            content = stream.came.pop(item.generation, b"") + item.content
            if item.part == "last":
                stream.unread.append((item.generation, item.kind, content))
                self.events.append(("readable", item.stream))
            else:
                stream.came[item.generation] = content


def open_message(label):
    return bytes([3, 0, 0, 0, 0, 0, 0, 0]) + len(label).to_bytes(2, "big") + bytes(2) + label


def is_utf8(content):
    try:
        content.decode()
    except UnicodeDecodeError:
        return False
    return True


# The label of an open message, if bytes begin with one (RFC 8832, section 5.1).
def opened_label(message):
    if len(message) < 12 or message[0] != 3:
        return None
    label, protocol = int.from_bytes(message[8:10], "big"), int.from_bytes(message[10:12], "big")
    texts = message[12:12 + label], message[12 + label:12 + label + protocol]
    return texts[0] if len(message) >= 12 + label + protocol and all(map(is_utf8, texts)) else None


# A stream in use: what it waits for, its label, and when its opening was refused first.
class Entry:
    def __init__(self, state, label):
        self.state, self.label, self.marked, self.refused = state, label, False, None


# The streams of data channels over an association.
class Streams:
    def __init__(self, most_buffered):
        self.association, self.state, self.client, self.last = Association(), "fresh", False, 0
        self.most_buffered = most_buffered
        self.entries, self.resets, self.completed, self.returned = {}, [], [], []

    def start(self, client, now, longest, told):
        if self.association.role is None:
            self.client, self.state = client, "established" if told else "waiting" if client else "unheard"
            self.association.start(client, now, longest, told)

    def close(self):
        if self.association.role and not self.association.is_ending():
            self.association.shut_down()

    def take(self, packet, now):
        if self.association.role:
            self.association.take(packet, now)
            self.state = "waiting" if self.state == "unheard" else self.state

    def drop_closed(self):
        self.entries = {number: entry for number, entry in self.entries.items() if entry.state != "closed"}

    def take_moment(self, now):
        if self.state == "fresh":
            return
        self.last = now
        self.drop_closed()
        if self.state != "unheard":
            self.association.take_moment(now)

    def wake(self):
        moments = [self.association.wake()] if self.state in ("waiting", "established") else []
        if any(entry.state == "await open" and entry.refused is not None for entry in self.entries.values()):
            moments.append(after(self.last, SECOND // 2))
        return min((moment for moment in moments if moment is not None), default=None)

    def open(self, number, label):
        if number in self.entries:
            self.entries[number].marked = True
        else:
            self.entries[number] = Entry("await open", label)

    def is_open(self, number):
        return self.state == "established" and number in self.entries and self.entries[number].state == "open"

    # Whether a message is taken: it is not where it is longer than what may be buffered yet over all streams in use. One of no bytes is
    # taken also where open messages filled the buffer.
    def write(self, number, binary, message):
        if len(message) > max(self.most_buffered - sum(self.association.buffered(own) for own in self.entries), 0):
            return False
        if self.association.is_ending():
            raise Unwritten("Write on a stream before it was established")
        if not self.association.is_open(number):
            raise Unwritten(f"no stream {number}")
        if len(message) > self.association.longest:
            raise Unwritten(f"message of {len(message)} bytes is longer than {self.association.longest}")
        return self.association.write(number, message, "binary" if binary else "text")

    # The entry of a stream that is closed is marked, and the stream of the association ends.
    def close_stream(self, number):
        if number in self.entries:
            self.entries[number].marked = True
            if self.association.close_stream(number) and number not in self.resets:
                self.resets.append(number)

    # Packets for the other end, or what happened to a stream, or None.
    def poll(self):
        met = "again"
        while met == "again":
            self.drop_closed()
            met = self.take_packets() or self.take_event() or self.visit_all() or self.take_completed()
        return met

    def take_packets(self):
        if self.returned:
            packets, self.returned = self.returned, []
            return "packets", packets
        return ("packets", [self.association.packets.pop(0)]) if self.association.packets else None

    def take_event(self):
        if not self.association.events:
            return None
        event, number = self.association.events.pop(0)
        if event == "connected":
            self.state = "established"
        elif event == "lost":
            self.resets, self.completed = [], []
            return "lost", None
        elif event == "readable":
            self.entries.setdefault(number, Entry("await config", None))
        elif event == "finished":
            if number in self.entries and self.entries[number].state != "await open":
                self.entries[number].marked = True
            self.resets += [] if number in self.resets else [number]
        else:
            self.resets = [own for own in self.resets if own != number]
            self.completed.append(number)
        return "again"

    def take_completed(self):
        return ("completed", self.completed.pop(0)) if self.completed else None

    def visit_all(self):
        if self.state != "established":
            return None
        for number in sorted(self.entries):
            met = self.visit(number, self.entries[number])
            if met:
                return met
        return None

    def visit(self, number, entry):
        if entry.state == "await open":
            return self.visit_opening(number, entry)
        if entry.state == "closed":
            return None
        if entry.marked:
            return self.end(number, entry)
        stream = self.association.stream(number)
        if not stream.there:
            entry.marked = True
            return "again"
        message = stream.read()
        return self.read(number, entry, *message) if message else None

    # An opening is given up ten seconds after it was refused first, and not at that moment itself, even if no later one follows.
    def visit_opening(self, number, entry):
        stream = self.association.stream(number)
        if stream.there or stream.close:
            if entry.refused is None:
                entry.refused = self.last
            elif entry.refused < self.last and after(entry.refused, 10 * SECOND) <= self.last:
                return self.end(number, entry)
            return None
        if self.association.is_ending():
            return self.end(number, entry)
        stream.there = True
        if not self.association.write(number, open_message(entry.label)):
            return self.end(number, entry)
        entry.state = "await ack"
        return "again"

    def end(self, number, entry):
        if self.association.close_stream(number) and number not in self.resets:
            self.resets.append(number)
        entry.state = "closed"
        return "closed", (number, number in self.resets)

    # A message of an unknown kind, and one of data channels that is malformed or not expected, ends the stream.
    def read(self, number, entry, kind, message):
        if kind in ("no text", "no binary"):
            kind, message = kind[3:], b""
        if kind in ("text", "binary"):
            return "message", (number, kind, message)
        if kind == OPENING and entry.state == "await ack" and message[:1] == ACKNOWLEDGEMENT:
            entry.state = "open"
            return "opened", (number, entry.label)
        label = opened_label(message) if kind == OPENING and entry.state == "await config" else None
        if label is not None:
            entry.label = label
            if not self.association.write(number, ACKNOWLEDGEMENT):
                return self.end(number, entry)
            entry.state = "open"
            return "opened", (number, entry.label)
        entry.marked = True
        return "again"


# A channel waits for a stream, and then, once it is confirmed with a label, to be opened.
class Channel:
    def __init__(self, number, stream=None):
        self.number, self.stream, self.label, self.confirmed = number, stream, None, False


class Channels:
    def __init__(self):
        self.given, self.rows, self.holds = 0, [], []

    def add(self, stream=None):
        self.rows.append(Channel(self.given, stream))
        self.given += 1
        return self.given - 1

    def confirm(self, number, label):
        for row in self.rows:
            if row.number == number:
                row.label, row.confirmed = label, True

    # A channel that was never confirmed goes, and its stream can be given again at once.
    def cancel(self, number):
        self.rows = [row for row in self.rows if row.number != number or row.confirmed]

    def of_stream(self, stream):
        return next((row for row in self.rows if row.stream == stream), None)

    # The side that is the client of DTLS has the even streams.
    def free_stream(self, streams):
        taken = {row.stream for row in self.rows} | set(self.holds)
        return next((number for number in range(0 if streams.client else 1, 65536, 2) if number not in taken), None)

    def is_due(self, streams):
        if streams.association.role is None:
            return False
        return any(row.label is not None if row.stream is not None else self.free_stream(streams) is not None for row in self.rows)

    def take_moment(self, streams):
        if not self.is_due(streams):
            return
        for row in self.rows:
            if row.stream is None:
                row.stream = self.free_stream(streams)
        for row in self.rows:
            if row.stream is not None and row.label is not None:
                streams.open(row.stream, row.label)
                row.label = None

    def remove(self, channel, pending):
        self.rows.remove(channel)
        self.holds += [channel.stream] if pending else []

    def complete(self, stream):
        if stream in self.holds:
            self.holds.remove(stream)

    def report(self, streams):
        lines = []
        for row in self.rows:
            if row.stream is None:
                lines.append(f"channel {row.number} - 0 waiting")
            else:
                generation = streams.association.stream(row.stream).generation
                state = "open" if streams.is_open(row.stream) else "waiting"
                lines.append(f"channel {row.number} {row.stream} {generation} {state}")
        return "".join(f"{line}\n" for line in lines)
