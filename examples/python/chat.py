#!/usr/bin/env python3
"""Two people chat over a data channel. Each line that one types is printed at the other; the end of the input hangs up.

usage: examples/python/chat.py listen PORT      in one terminal
       examples/python/chat.py call PORT        in another
"""
import sys

from session import Session, connect, listen

from gondyru import ChannelClose, ChannelData, ChannelOpen, Closed


# What the other side did. Returns whether the chat goes on.
def show(event, session):
    if isinstance(event, ChannelOpen):
        session.channel = event.channel
        print(f"{event.label} is open", flush=True)
    elif isinstance(event, ChannelData):
        print(f"> {event.data.decode(errors='replace')}", flush=True)
    elif isinstance(event, (ChannelClose, Closed)):
        print("the other side hung up", flush=True)
        return False
    return True


def chat(session):
    session.channel = None
    # Without a buffer, so that each line that waits wakes `step`.
    lines = open(sys.stdin.fileno(), "rb", buffering=0, closefd=False)
    while True:
        while session.events:
            if not show(session.events.pop(0), session):
                return
        inputs = [] if session.channel is None else [lines]
        if session.step(1.0, *inputs):
            line = lines.readline().decode(errors="replace")
            if not line:
                session.hang_up()
                return
            if not session.peer.write(session.channel, line.rstrip("\n")):
                print("too much is on its way", flush=True)


def main():
    if len(sys.argv) != 3 or sys.argv[1] not in ("listen", "call"):
        sys.exit(__doc__)
    does_call, port = sys.argv[1] == "call", int(sys.argv[2])
    with Session() as session, (connect if does_call else listen)(port) as stream:
        if does_call:
            session.peer.add_channel("chat")
            session.call(stream)
        else:
            session.answer(stream)
        chat(session)


if __name__ == "__main__":
    main()
