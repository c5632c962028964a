#!/usr/bin/env python3
"""Does in Python what tests/c/messages.c does in C. tests/measure.py counts its instructions.

usage: tests/python_messages.py MESSAGES BYTES
"""
import os
import sys

sys.path.insert(0, os.path.join(os.path.dirname(os.path.dirname(os.path.abspath(__file__))), "python"))

from gondyru import ChannelData, ChannelOpen, Peer, Transmit


class Side:
    def __init__(self, address, first):
        self.peer, self.sent, self.channel, self.messages = Peer(address, first), [], None, []

    def drain(self):
        for output in self.peer.outputs():
            if isinstance(output, Transmit):
                self.sent.append(output)
            elif isinstance(output, ChannelOpen):
                self.channel = output.channel
            elif isinstance(output, ChannelData):
                self.messages.append(len(output.data))

    def hear(self, other):
        for datagram in other.sent:
            self.peer.handle_receive(0, datagram.source, datagram.destination, datagram.data)
            self.drain()
        other.sent.clear()


def settle(left, right):
    left.drain()
    right.drain()
    while left.sent or right.sent:
        right.hear(left)
        left.hear(right)


def meet(left, right):
    left.peer.add_channel("")
    left.peer.accept_answer(right.peer.accept_offer(left.peer.offer()))
    for _ in range(4):
        left.peer.handle_timeout(0)
        right.peer.handle_timeout(0)
        settle(left, right)


def main():
    if len(sys.argv) != 3:
        sys.exit(__doc__)
    count, size = int(sys.argv[1]), int(sys.argv[2])
    left, right = Side(("10.0.0.1", 1000), 1), Side(("10.0.0.2", 2000), 1_000_001)
    meet(left, right)
    for _ in range(count):
        if not left.peer.write(left.channel, bytes(size)):
            sys.exit("too much is buffered")
        settle(left, right)
    if right.messages != [size] * count:
        sys.exit(f"received: {right.messages}")
    print(f"{count} messages, {count * size} bytes")


if __name__ == "__main__":
    main()
