"""A session of two processes on one machine: texts of offers and answers over TCP, datagrams over UDP."""
import os
import random
import select
import socket
import struct
import sys
import time

sys.path.insert(0, os.path.join(os.path.dirname(os.path.abspath(__file__)), "..", "..", "python"))

from gondyru import GondyruError, Peer, Timeout, Transmit

HOST = "127.0.0.1"
PATIENCE = 30.0


def send_text(stream, text):
    data = text.encode()
    stream.sendall(struct.pack(">I", len(data)) + data)


def read_exactly(stream, count):
    data = b""
    while len(data) < count:
        more = stream.recv(count - len(data))
        if not more:
            raise ConnectionError("the other side is gone")
        data += more
    return data


def receive_text(stream):
    (size,) = struct.unpack(">I", read_exactly(stream, 4))
    return read_exactly(stream, size).decode()


def connect(port):
    end = time.monotonic() + PATIENCE
    while True:
        try:
            return socket.create_connection((HOST, port))
        except ConnectionRefusedError:
            if time.monotonic() > end:
                raise
            time.sleep(0.05)


def listen(port):
    with socket.create_server((HOST, port)) as server:
        server.settimeout(PATIENCE)
        stream, _ = server.accept()
        return stream


class Session:
    """A peer with its socket. With `drop`, one datagram in so many is lost on its way out."""

    def __init__(self, drop=0, seed=0):
        self.socket = socket.socket(socket.AF_INET, socket.SOCK_DGRAM)
        self.socket.bind((HOST, 0))
        self.socket.setsockopt(socket.SOL_SOCKET, socket.SO_RCVBUF, 1 << 22)
        self.socket.setblocking(False)
        self.address = self.socket.getsockname()
        self.peer = Peer(self.address, random.SystemRandom().getrandbits(63))
        self.started = time.monotonic_ns()
        self.drop, self.chance = drop, random.Random(seed)
        self.wake = 0
        self.events = []

    def __enter__(self):
        return self

    def __exit__(self, *_):
        self.peer.free()
        self.socket.close()

    def now(self):
        return time.monotonic_ns() - self.started + 1

    # Sends what the peer has to send, and keeps its events.
    def drain(self):
        for output in self.peer.outputs():
            if isinstance(output, Transmit):
                if not self.drop or self.chance.randrange(self.drop):
                    self.socket.sendto(output.data, output.destination)
            elif isinstance(output, Timeout):
                self.wake = output.moment
            else:
                self.events.append(output)

    def handle_datagrams(self):
        for _ in range(64):
            try:
                data, source = self.socket.recvfrom(65_536)
            except BlockingIOError:
                return
            try:
                self.peer.handle_receive(self.now(), source, self.address, data)
            except GondyruError as error:
                print(f"datagram refused: {error}", file=sys.stderr)
            self.drain()

    def step(self, most=1.0, *others):
        """Waits for a datagram, for the next moment of the peer, or for another input, and returns the inputs that are there."""
        self.peer.handle_timeout(self.now())
        self.drain()
        left = most if self.wake is None else min(most, max(0.0, (self.wake - self.now()) / 1e9))
        ready, _, _ = select.select([self.socket, *others], [], [], 0 if self.events else left)
        self.handle_datagrams()
        return [it for it in ready if it is not self.socket]

    def next_event(self):
        """Waits for the next event."""
        while not self.events:
            self.step()
        return self.events.pop(0)

    def call(self, stream):
        """Offers what was added, and waits for the answer."""
        send_text(stream, self.peer.offer())
        self.peer.accept_answer(receive_text(stream))

    def answer(self, stream):
        """Waits for an offer, and answers it."""
        send_text(stream, self.peer.accept_offer(receive_text(stream)))

    def hang_up(self):
        """Closes the peer, and sends what is left of it for a moment."""
        self.peer.close()
        end = time.monotonic() + 0.3
        while time.monotonic() < end:
            self.step(0.05)
