#!/usr/bin/env python3
"""Makes every call of the Python package at least once: two peers agree, exchange messages, change lines, roll an offer back, and close.

usage: tests/python_peer.py
"""
import os
import sys
import threading
from ctypes import byref

sys.path.insert(0, os.path.join(os.path.dirname(os.path.dirname(os.path.abspath(__file__))), "python"))

from gondyru import ChannelClose, ChannelData, ChannelOpen, Closed, Connected, Direction, GondyruError, IceConnectionStateChange, IceState
from gondyru import MediaAdded, MediaKind, Peer, Reliability, Role, Status, Timeout, Transmit
from gondyru.peer import _calls

STEP = 20_000_000
LEFT, RIGHT = ("10.0.0.1", 1000), ("10.0.0.2", 2000)


def check(what, is_right):
    if not is_right:
        sys.exit(f"WRONG {what}")


# The status of what a call raises.
def refused(call, *given):
    try:
        call(*given)
    except GondyruError as error:
        check("an error has a text", len(str(error)) > 3)
        return error.status
    return Status.DONE


class Side:
    def __init__(self, address, first, **settings):
        self.peer, self.sent, self.events = Peer(address, first, **settings), [], []

    def drain(self):
        for output in self.peer.outputs():
            if isinstance(output, Transmit):
                self.sent.append(output)
            elif not isinstance(output, Timeout):
                self.events.append(output)

    def run(self, other, now):
        self.peer.handle_timeout(now)
        self.drain()
        for datagram in other.sent:
            self.peer.handle_receive(now, datagram.source, datagram.destination, datagram.data)
            self.drain()
        other.sent.clear()

    def have(self, kind):
        return [event for event in self.events if isinstance(event, kind)]


class Pair:
    def __init__(self):
        self.left, self.right, self.now = Side(LEFT, 1), Side(RIGHT, 1_000_001, role=Role.IMPOLITE), 0

    def exchange(self):
        for _ in range(10):
            self.now += STEP
            self.left.run(self.right, self.now)
            self.right.run(self.left, self.now)

    def negotiate(self):
        self.left.peer.accept_answer(self.right.peer.accept_offer(self.left.peer.offer()))
        self.exchange()


def first_offer(pair):
    peer = pair.left.peer
    check("nothing is to be offered", peer.offer() is None)
    peer.add_media(MediaKind.VIDEO, Direction.SENDONLY)
    peer.add_channel("chat", protocol="lines")
    pair.negotiate()
    for side, direction in ((pair.left, Direction.SENDONLY), (pair.right, Direction.RECVONLY)):
        media, channels = side.peer.lines()
        check("lines", (media.kind, media.direction, media.stopped) == (MediaKind.VIDEO, direction, False))
        check("the line of channels", channels.kind is None and channels.place == 1)
        check("a side is connected", side.have(Connected) == [Connected()])
        check("ICE works", side.have(IceConnectionStateChange)[-1].state in (IceState.CONNECTED, IceState.COMPLETED))
        check("a channel is open", [it.label for it in side.have(ChannelOpen)] == ["chat"] and side.peer.channels()[0].is_open)
    check("who added the lines", [it.remote_created for it in pair.right.peer.lines()][0] and not pair.left.peer.lines()[0].remote_created)
    check("a line is added", [it.kind for it in pair.right.have(MediaAdded)] == [MediaKind.VIDEO])


def messages(pair):
    left, right = pair.left.have(ChannelOpen)[0].channel, pair.right.have(ChannelOpen)[0].channel
    check("a text is written", pair.left.peer.write(left, "h\u00e9llo"))
    check("bytes are written", pair.right.peer.write(right, b"\x00\xff\x00"))
    check("an empty message is written", pair.right.peer.write(right, b""))
    pair.exchange()
    check("a text is received", pair.right.have(ChannelData) == [ChannelData(right, False, "h\u00e9llo".encode())])
    check("bytes are received", pair.left.have(ChannelData) == [ChannelData(left, True, b"\x00\xff\x00"), ChannelData(left, True, b"")])
    check("too much is refused", not pair.left.peer.write(left, bytes(200_000)))
    check("a channel that is not there", refused(pair.left.peer.write, 99, b"x") == Status.NO_CHANNEL)


def changes(pair):
    peer, mid = pair.left.peer, pair.left.peer.lines()[0].mid
    peer.set_direction(mid, Direction.SENDRECV)
    peer.ice_restart(True)
    pair.negotiate()
    check("a direction is set", pair.right.peer.lines()[0].direction == Direction.SENDRECV)
    peer.stop_media(mid)
    offer = peer.offer()
    check("a line is stopped", peer.lines()[0].stopped)
    peer.rollback()
    check("an offer is rolled back", not peer.lines()[0].stopped)
    check("no offer is left", refused(peer.rollback) == Status.NO_OFFER)
    pair.right.peer.add_media(MediaKind.AUDIO, Direction.INACTIVE)
    check("the other side offers", pair.right.peer.offer().count("m=") == 3)
    check("both sides offer", refused(pair.right.peer.accept_offer, offer) == Status.GLARE)
    check("a text is no answer", refused(pair.right.peer.accept_answer, "x") == Status.BAD_SDP)
    pair.right.peer.rollback()
    peer.add_channel("more", ordered=False, reliability=Reliability.MAX_RETRANSMITS, limit=3)
    peer.add_channel("agreed", stream=7)
    check("channels alone need no offer", peer.offer() is None)
    pair.exchange()
    peer.add_channel("again", stream=7)
    check("a stream that is taken", refused(peer.offer) == refused(peer.offer) == Status.BAD_CHANNEL)
    peer.discard_changes()
    check("changes are discarded", peer.offer() is None)
    check("more channels", [it.stream for it in peer.channels()][-1] == 7 and len(pair.right.have(ChannelOpen)) == 2)


def refusals(pair):
    peer = pair.left.peer
    check("a kind of media", refused(peer.add_media, 2, 0) == Status.BAD_NUMBER)
    check("a direction", refused(peer.add_media, 0, 4) == Status.BAD_NUMBER)
    check("a mid", refused(peer.stop_media, "") == Status.BAD_MID)
    check("a datagram", refused(peer.handle_receive, pair.now, RIGHT, LEFT, b"") == Status.BAD_DATAGRAM)
    other = threading.Thread(target=lambda: check("another thread", raises(RuntimeError, peer.close)))
    other.start()
    other.join()
    check("an address", raises(ValueError, Peer, ("10.0.0", 1), 1) and raises(ValueError, Peer, ("10.0.0.1", 65_536), 1))
    check("a role", refused(lambda: Peer(LEFT, 1, role=3)) == Status.BAD_NUMBER)


def raises(kind, call, *given):
    try:
        call(*given)
    except kind:
        return True
    return False


def end(pair):
    pair.left.peer.close_data_channel(pair.left.have(ChannelOpen)[0].channel)
    pair.exchange()
    check("a channel is closed", len(pair.left.have(ChannelClose)) == 1 and len(pair.right.have(ChannelClose)) == 1)
    pair.left.peer.close()
    pair.exchange()
    check("the connection is closed", bool(pair.right.have(Closed)))
    for side in (pair.left, pair.right):
        side.peer.free()
        check("a freed peer", refused(side.peer.offer) == Status.NO_PEER and refused(side.peer.lines) == Status.NO_PEER)
    with Peer(LEFT, 1, ice_lite=True, snap=True) as peer:
        check("a peer waits", isinstance(peer.poll_output(), Timeout))


# The thread that made a peer frees it by dropping it; another one does not.
def dropped(_):
    peers = [Peer(LEFT, 1), Peer(LEFT, 1)]
    here, other = (peer._slot for peer in peers)
    thread = threading.Thread(target=peers.pop)
    thread.start()
    thread.join()
    check("a peer that another thread drops", _calls.gondyru_discard_changes(byref(other)) == Status.DONE)
    peers.clear()
    check("a peer that its thread drops", _calls.gondyru_discard_changes(byref(here)) == Status.NO_PEER)
    _calls.gondyru_free_peer(byref(other))


def main():
    if sys.argv[1:]:
        sys.exit(__doc__)
    pair = Pair()
    for part in (first_offer, messages, changes, refusals, end, dropped):
        part(pair)


if __name__ == "__main__":
    main()
