"""A model of how two peers connect over the parts in memory, for tests/random_scripts.py.

It is written from the rules of docs/FORMATS.md and of the READMEs of rtc_plain_ice, rtc_plain_dtls, rtc_plain_media, rtc_peer_transport
and rtc_peer_polling, and not from the program. A side has one candidate, is not lite, restarts no ICE and knows the right fingerprint. tests/associations.py has
what data channels do.
"""
from associations import FAR_FUTURE, SECOND, Channels, Packet, Streams

AGAIN = "again"


# What one side sends the other: the part that reads it, what it says, and how many bytes it has.
class Datagram:
    def __init__(self, part, said, length):
        self.part, self.said, self.length = part, said, length


# Checks go from the one candidate of this side to that of the other until a response comes; each is answered.
class Ice:
    def __init__(self, ufrag):
        self.ufrag, self.remote = ufrag, None
        self.state, self.checks, self.due, self.nominated = "new", 0, None, False
        self.events, self.queue = [], []

    def wake(self):
        if self.due is not None:
            return self.due
        return 0 if self.remote and not self.nominated else None

    def message(self, kind, number, receiver):
        return Datagram("ice", (kind, number, receiver, self.ufrag), 22 + len(receiver) + len(self.ufrag))

    def take_moment(self, now):
        if not self.remote or self.nominated or (self.due is not None and self.due > now):
            return
        self.checks, self.due = self.checks + 1, min(now + SECOND // 4, FAR_FUTURE)
        if self.state == "new":
            self.state = "checking"
            self.events.append("ice checking")
        self.queue.append(self.message("check", self.checks, self.remote))

    def take(self, said):
        kind, number, receiver, sender = said or (None, None, None, None)
        if kind == "check" and receiver == self.ufrag:
            self.queue.append(self.message("response", number, sender))
        elif kind == "response" and self.due is not None and number == self.checks:
            self.nominated, self.due, self.state = True, None, "connected"
            self.events += ["ice connected", "pair"]


# `active` is None before there is a role. Packets have three bytes of certificate behind two of marks, or the marks alone.
class Dtls:
    def __init__(self):
        self.active, self.phase, self.greatest = None, None, 0
        self.packets, self.outputs, self.closed, self.notified = [], [], False, False

    def wanted(self):
        sends_again = self.phase in ("start", "hello sent", "certificate sent")
        return self.greatest + SECOND if sends_again and self.greatest + SECOND < FAR_FUTURE else FAR_FUTURE

    def send(self, said):
        self.packets.append(Datagram("dtls", said, 5 if said in ("hello", "certificate") else 2))

    # Application data goes once this side has finished the handshake.
    def can_send(self):
        return self.active is not None and self.phase == "finished"

    def send_data(self, packet):
        self.packets.append(Datagram("dtls", packet, 1 + packet.length))

    # An active side begins at once.
    def begin(self, active, now):
        if self.active is None:
            self.active, self.phase = active, "start" if active else "waiting"
            self.take_moment(now)
            if self.phase == "start":
                self.send("hello")
                self.phase = "hello sent"

    def take_moment(self, now):
        if self.wanted() <= now:
            if self.phase in ("start", "hello sent"):
                self.send("hello")
                self.phase = "hello sent"
            elif self.phase == "certificate sent":
                self.send("certificate")
        self.greatest = max(self.greatest, now)

    def finish(self):
        self.phase = "finished"
        self.outputs += ["keys", "connected"]

    def take(self, said):
        if self.active is None:
            return
        if said == "hello" and not self.active and self.phase != "finished":
            self.send("certificate")
            self.phase = "certificate sent"
        elif said == "certificate" and self.active:
            if self.phase != "finished":
                self.finish()
            self.send("finish")
        elif said == "finish" and self.phase == "certificate sent":
            self.finish()
        elif said == "close" and not self.notified:
            self.notified = True
            self.outputs.append("close")
        elif isinstance(said, Packet) and self.phase in ("certificate sent", "finished"):
            if self.phase != "finished":
                self.finish()
            self.outputs.append(said)

    def close(self):
        self.closed = True
        if self.active is not None:
            self.send("close")


# The directions of the lines are those that the last descriptions left, and not those of the rows.
class Media:
    def __init__(self):
        self.lines, self.events, self.goodbyes, self.shut = {}, [], 0, False

    # `rows` are those that a description names, with those that stood at their places before.
    def update(self, rows, offer):
        named = {row.mid for row, _ in rows}
        for row, before in rows:
            if before and before.mid != row.mid and before.mid not in named:
                self.lines.pop(before.mid, None)
        for row, before in rows:
            if row.kind == "app":
                continue
            if offer and not row.stopped and (before is None or before.mid != row.mid):
                self.events.append(f"media added {row.mid} {row.kind} {row.direction}")
            elif self.lines.get(row.mid, row.direction) != row.direction:
                self.events.append(f"media changed {row.mid} {row.direction}")
            self.lines[row.mid] = row.direction

    def close(self):
        if not self.shut:
            self.shut, self.goodbyes = True, 1


class Connection:
    def __init__(self, ufrag, sizes):
        self.ice, self.dtls, self.media = Ice(ufrag), Dtls(), Media()
        self.streams, self.channels = Streams(sizes.buffered), Channels()
        self.phase, self.handshake, self.greatest, self.dtls_wake, self.paired = "alive", "pending", 0, FAR_FUTURE, False

    # Follows a description that is accepted: the fragment of its side, whether this side begins the handshake, whether there is a line of
    # data channels, with which the association starts, the longest message that the other side tells, and whether the chunks of both sides
    # were told.
    def follow(self, ufrag, active, has_channels, longest, told):
        self.ice.remote = ufrag
        self.dtls.begin(active, self.greatest)
        if has_channels:
            self.streams.start(self.dtls.active, self.greatest, longest, told)

    def take_moment(self, now):
        if self.phase != "closed" and now >= self.greatest:
            self.greatest = now
            self.ice.take_moment(now)
            self.streams.take_moment(now)
            self.channels.take_moment(self.streams)

    def take(self, datagram, now):
        if self.phase == "closed":
            return
        if datagram.part in ("media", "rtp"):
            self.media.events.append(f"media {'rtcp' if datagram.part == 'media' else 'rtp'} {datagram.length}")
        else:
            {"ice": self.ice, "dtls": self.dtls}[datagram.part].take(datagram.said)
        self.take_moment(now)

    def close(self):
        if self.phase == "alive":
            self.phase = "closing"
            self.media.close()
            self.streams.close()
            self.dtls.close()

    def is_dtls_due(self):
        return self.dtls_wake != FAR_FUTURE and self.dtls_wake <= self.greatest

    # What the outputs of DTLS tell, up to the one that is an event.
    def take_outputs(self):
        while self.dtls.outputs:
            output = self.dtls.outputs.pop(0)
            if output == "connected" and self.handshake == "pending":
                self.handshake = "finished"
            if isinstance(output, Packet):
                self.streams.take(output, self.greatest)
            if output == "close":
                self.close()
                self.handshake = "told" if self.handshake == "finished" else self.handshake
                return True
        return False

    # The first event of the streams that is told, or else one of their packets goes over DTLS, and the walk starts over.
    def tell_streams(self):
        event = self.streams.poll()
        while event and event[0] != "packets":
            told = self.take_stream_event(*event)
            if told:
                return told
            event = self.streams.poll()
        if not event:
            return None
        first, *rest = event[1]
        if not self.dtls.can_send():
            self.streams.returned = event[1]
            return None
        self.dtls.send_data(first)
        self.streams.returned = rest
        return AGAIN

    def take_stream_event(self, event, about):
        if event == "lost":
            self.channels.holds = []
            self.close()
            return "closed"
        if event == "completed":
            self.channels.complete(about)
            return None
        if event == "opened":
            stream, label = about
            channel = self.channels.of_stream(stream)
            number = channel.number if channel else self.channels.add(stream)
            return f"open {number} {label.hex() or '-'}"
        if event == "message":
            stream, kind, message = about
            channel = self.channels.of_stream(stream)
            return f"data {channel.number} {kind} {message.hex() or '-'}" if channel else None
        stream, pending = about
        channel = self.channels.of_stream(stream)
        if channel:
            self.channels.remove(channel, pending)
        return f"close {channel.number}" if channel else None

    # The stream of a channel that is open, if it is.
    def open_stream(self, number):
        row = next((row for row in self.channels.rows if row.number == number), None)
        found = self.phase == "alive" and row and row.stream is not None and self.streams.is_open(row.stream)
        return row.stream if found else None

    # One walk over the parts: what it met, if anything.
    def walk(self):
        while self.ice.events:
            event = self.ice.events.pop(0)
            if event != "pair":
                return event
            self.paired = True
        if self.is_dtls_due() and self.dtls.active is not None:
            self.dtls.take_moment(self.greatest)
        if self.take_outputs():
            return "closed"
        self.dtls_wake = self.dtls.wanted()
        if self.handshake == "finished":
            self.handshake = "told"
            return "connected"
        told = self.tell_streams()
        if told:
            return told
        if self.media.events:
            return self.media.events.pop(0)
        if self.ice.queue:
            return self.ice.queue.pop(0)
        if not self.paired:
            self.media.goodbyes = 0
            return None
        if self.dtls.packets:
            return self.dtls.packets.pop(0)
        if self.media.goodbyes:
            self.media.goodbyes = 0
            return Datagram("media", "goodbye", 4)
        return None

    # A datagram, the words of an event, or None and the moment at which a timeout is wanted, with what for.
    def poll(self):
        if self.phase != "closed":
            met = self.walk()
            while met == AGAIN or (met is None and self.is_dtls_due()):
                met = self.walk()
            if met is not None:
                return met, None, None
            if self.phase == "closing" and not self.dtls.packets and not self.media.goodbyes:
                self.phase = "closed"
        if self.phase == "closed":
            return None, FAR_FUTURE, "NotHappening"
        moment, reason = self.dtls_wake, "DTLS"
        channels_wake = 0 if self.channels.is_due(self.streams) else None
        for wake, other in [(self.ice.wake(), "Ice"), (self.streams.wake(), "Sctp"), (channels_wake, "Channel")]:
            if wake is not None and wake < moment:
                moment, reason = wake, other
        return None, max(self.greatest, moment), reason
