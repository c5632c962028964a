"""The bytes of datagrams of peers over the parts in memory, for tests/random_scripts.py: what a side sends, and what bytes say.

It is written from the READMEs of rtc_plain_ice, rtc_plain_dtls, rtc_plain_media and rtc_assoc_state, and from RFC 7983, section 7, with
the stricter profile of docs/STANDARDS.md, and not from the program.
"""
from associations import OPENING, Item, Packet
from connections import Datagram

CERTIFICATES = {"L": b"abc", "R": b"def"}
COOKIE = bytes.fromhex("2112a442")
PARTS = ["more", "last", "close"]
LONGEST = 1900
# Identifiers of payloads (RFC 8831, section 8).
KINDS = {50: OPENING, 51: "text", 53: "binary", 56: "no text", 57: "no binary"}


# Why bytes are no datagram of a kind.
class NoDatagram(Exception):
    pass


def identifier(item):
    if item.part == "close":
        return 0
    return {OPENING: 50, "text": 51 if item.content else 56, "binary": 53 if item.content else 57}[item.kind]


def data_bytes(acknowledged, number, stream, generation, part, kind, content):
    head = acknowledged.to_bytes(8, "big") + number.to_bytes(8, "big") + stream.to_bytes(2, "big") + generation.to_bytes(4, "big")
    return b"\3" + head + bytes([part]) + kind.to_bytes(4, "big") + content


def packet_bytes(packet):
    if packet.kind == "data":
        item = packet.item
        about = (item.stream, item.generation, PARTS.index(item.part), identifier(item), item.content)
        return data_bytes(packet.acknowledged, packet.number, *about)
    if packet.kind == "acknowledgement":
        return b"\4" + packet.acknowledged.to_bytes(8, "big")
    return {"hello": b"\1", "welcome": b"\2", "shutdown": b"\5"}[packet.kind]


# The bytes of a datagram that this side sent.
def datagram_bytes(at, datagram):
    said = datagram.said
    if datagram.part == "ice":
        kind, number, receiver, sender = said
        body = bytes([len(receiver)]) + receiver.encode("latin-1") + bytes([len(sender)]) + sender.encode("latin-1")
        head = bytes([0 if kind == "check" else 1, 1]) + len(body).to_bytes(2, "big") + COOKIE
        return head + number.to_bytes(12, "big") + body
    if datagram.part == "media":
        return bytes.fromhex("80cb0000")
    if isinstance(said, Packet):
        return b"\x17" + packet_bytes(said)
    certificate = CERTIFICATES[at]
    return {"hello": b"\x16\1" + certificate, "certificate": b"\x16\2" + certificate, "finish": b"\x16\3", "close": b"\x15\1"}[said]


def read_packet(content):
    length = len(content)
    if length == 1 and content in (b"\1", b"\2", b"\5"):
        return Packet({1: "hello", 2: "welcome", 5: "shutdown"}[content[0]], 1)
    if length == 9 and content[0] == 4:
        return Packet("acknowledgement", 9, int.from_bytes(content[1:], "big"))
    if length < 28 or content[0] != 3 or content[23] > 2:
        return Packet("nothing", length)
    stream, generation = int.from_bytes(content[17:19], "big"), int.from_bytes(content[19:23], "big")
    kind = KINDS.get(int.from_bytes(content[24:28], "big"), "other")
    item = Item(stream, generation, PARTS[content[23]], content[28:], kind)
    return Packet("data", length, int.from_bytes(content[1:9], "big"), int.from_bytes(content[9:17], "big"), item)


def read_message(content):
    body = content[20:]
    first = body[0] if body else 0
    second = body[1 + first] if len(body) > 1 + first else 0
    kind = {(0, 1): "check", (1, 1): "response"}.get((content[0], content[1]))
    if kind is None or len(body) != 2 + first + second:
        return None
    return kind, int.from_bytes(content[8:20], "big"), body[1:1 + first].decode("latin-1"), body[2 + first:].decode("latin-1")


def read_record(content):
    if content[0] == 0x17 and len(content) <= 1 + LONGEST:
        return read_packet(content[1:])
    if content[:2] in (b"\x16\1", b"\x16\2") and len(content) <= 2 + LONGEST:
        return {1: "hello", 2: "certificate"}[content[1]]
    return {b"\x16\3": "finish", b"\x15\1": "close"}.get(content)


# The datagram of bytes; what no part reads of it says nothing.
def read_datagram(content):
    if not content:
        raise NoDatagram("Empty datagram")
    first, length = content[0], len(content)
    if first < 2 and length >= 20:
        if content[4:8] != COOKIE or length != 20 + int.from_bytes(content[2:4], "big"):
            raise NoDatagram("not a STUN message")
        return Datagram("ice", read_message(content), length)
    if 20 <= first < 64:
        return Datagram("dtls", read_record(content), length)
    if 128 <= first < 192 and length >= 3:
        return Datagram("media" if 64 <= content[1] & 127 < 96 else "rtp", None, length)
    raise NoDatagram("Unknown datagram")
