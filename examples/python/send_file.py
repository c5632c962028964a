#!/usr/bin/env python3
"""Sends a file over a data channel, with a bar of its progress. With --drop N, one datagram in N is lost on its way out.

usage: examples/python/send_file.py receive FILE PORT [--drop N]      in one terminal
       examples/python/send_file.py send FILE PORT [--drop N]         in another
"""
import hashlib
import json
import os
import sys

from session import Session, connect, listen

from gondyru import ChannelClose, ChannelData, ChannelOpen, Closed

PIECE = 16_384
WIDTH = 40


def show(done, size):
    part = done / size if size else 1.0
    print(f"\r[{'#' * int(part * WIDTH):{WIDTH}}] {part:4.0%}", end="\n" if done >= size else "", file=sys.stderr, flush=True)


# Writes a message, and waits while too much is buffered.
def write(session, channel, message):
    while not session.peer.write(channel, message):
        session.step(0.05)
    session.drain()


# The next event of a kind.
def wait_for(session, kind):
    while True:
        event = session.next_event()
        if isinstance(event, kind):
            return event
        if isinstance(event, (ChannelClose, Closed)):
            sys.exit("the other side hung up")


def send(session, path):
    channel = wait_for(session, ChannelOpen).channel
    size, done, digest = os.path.getsize(path), 0, hashlib.sha256()
    write(session, channel, json.dumps({"size": size}))
    with open(path, "rb") as file:
        while piece := file.read(PIECE):
            write(session, channel, piece)
            digest.update(piece)
            done += len(piece)
            session.step(0)
            show(done, size)
    write(session, channel, json.dumps({"sha256": digest.hexdigest()}))
    answer = wait_for(session, ChannelData)
    print(answer.data.decode())
    session.hang_up()


def receive(session, path):
    channel = wait_for(session, ChannelOpen).channel
    size, done, digest = json.loads(wait_for(session, ChannelData).data)["size"], 0, hashlib.sha256()
    with open(path, "wb") as file:
        while True:
            message = wait_for(session, ChannelData)
            if not message.binary:
                break
            file.write(message.data)
            digest.update(message.data)
            done += len(message.data)
            show(done, size)
    is_whole = done == size and json.loads(message.data)["sha256"] == digest.hexdigest()
    print("the file is whole" if is_whole else "the file is not whole")
    write(session, channel, "received" if is_whole else "not received")
    wait_for(session, (ChannelClose, Closed))


def main():
    words, drop = sys.argv[1:], 0
    if len(words) == 5 and words[3] == "--drop":
        words, drop = words[:3], int(words[4])
    if len(words) != 3 or words[0] not in ("send", "receive"):
        sys.exit(__doc__)
    does_send, path, port = words[0] == "send", words[1], int(words[2])
    with Session(drop) as session, (connect if does_send else listen)(port) as stream:
        if does_send:
            session.peer.add_channel("file")
            session.call(stream)
            send(session, path)
        else:
            session.answer(stream)
            receive(session, path)


if __name__ == "__main__":
    main()
