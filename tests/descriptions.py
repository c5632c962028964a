"""Session descriptions as a peer reads them, for tests/random_scripts.py: what a text says, or the line that refuses it, and whether its
BUNDLE group fits its lines.

It is written from docs/FORMATS.md ("Session descriptions: what is read", "Which descriptions a peer accepts") and not from the program. Of a
text only that is kept by which a reply is told: no payload types, header extensions, candidates and SSRCs.
"""
import base64
import binascii
import re

TOKEN = rb"[!#$%&'*+.0-9A-Z^_`a-z{|}~-]+"
NAME = rb"[!#$%&'*+.0-9A-Z^_`a-z{|}~-]{1,32}"
BUNDLE = rb"BUNDLE( " + NAME + rb")*"
KINDS = {b"audio": "audio", b"video": "video", b"application": "app"}
PROTOCOLS = {"audio": [b"UDP/TLS/RTP/SAVPF"], "video": [b"UDP/TLS/RTP/SAVPF"], "app": [b"UDP/DTLS/SCTP", b"TCP/DTLS/SCTP", b"DTLS/SCTP"]}
DIRECTIONS = [b"sendrecv", b"sendonly", b"recvonly", b"inactive"]
NO_CHUNK = "no chunk"


# A peer refuses a description, with the words of its report.
class Refused(Exception):
    pass


# An m-line that a text says. `layers` are how many layers it sends and receives, if it names any. A line that is not rejected has a port or
# is in the group.
class Line:
    def __init__(self, mid, kind, direction, port=True, layers=None):
        self.mid, self.kind, self.direction, self.port, self.layers, self.rejected = mid, kind, direction, port, layers, False


# What a text says. `groups` has the mids of each BUNDLE group; `chunk` is None, or the bytes of an INIT chunk, or NO_CHUNK.
class Said:
    def __init__(self, lines, groups, lite=False, credentials=None, fingerprint=False, setup="actpass", chunk=None, longest=65536):
        self.lines, self.groups, self.lite, self.credentials, self.fingerprint = lines, groups, lite, credentials, fingerprint
        self.setup, self.chunk, self.longest = setup, chunk, longest
        named = groups[0] if len(groups) == 1 else []
        for line in lines:
            line.rejected = line.kind != "app" and not line.port and line.mid not in named


# The first of these that does not hold.
def judge_group(said):
    mids = [line.mid for line in said.lines]
    if len(said.groups) != 1:
        raise Refused(f"2 {'several BUNDLE groups' if said.groups else 'no BUNDLE group'}")
    if not said.groups[0]:
        raise Refused("2 BUNDLE group is empty")
    if any(mid not in mids for mid in said.groups[0]):
        raise Refused("2 BUNDLE names an unknown mid")
    if any(line.port and line.mid not in said.groups[0] for line in said.lines):
        raise Refused("2 line is not in the BUNDLE group")
    if len(set(mids)) < len(mids):
        raise Refused("2 mid is repeated")


# ---- lines


# The filled lines with their numbers, and how many lines there are.
def numbered(text):
    *ended, last = text.split(b"\n")
    lines = [line.removesuffix(b"\r") for line in ended] + ([last] if last else [])
    return [(place + 1, line) for place, line in enumerate(lines) if line], len(lines)


# An attribute with the number of its line; it has no value if it has no colon.
def attribute(number, line):
    name, colon, value = line[2:].partition(b":")
    return number, name, value if colon else None


# A session part, without a head, or a line part with what its m-line says.
class Part:
    def __init__(self, number=None, head=None):
        self.number, self.head, self.attributes = number, head, []

    # The values of an attribute that have this form, in order.
    def values(self, name, form):
        found = [value for _, own, value in self.attributes if own == name and value is not None]
        return [value for value in found if re.fullmatch(form, value, re.DOTALL)]

    # The attributes of these names that have no value.
    def flags(self, names):
        return [own for _, own, value in self.attributes if own in names and value is None]

    # The lines of an attribute that have not this form.
    def others(self, name, form):
        values = [(number, value) for number, own, value in self.attributes if own == name]
        return [number for number, value in values if value is None or not re.fullmatch(form, value, re.DOTALL)]

    def credentials(self):
        ufrags, passwords = self.values(b"ice-ufrag", rb"[^ ]{1,255}"), self.values(b"ice-pwd", rb"[^ ]{1,256}")
        return (ufrags[0], passwords[0]) if ufrags and passwords else None


def parts_of(lines):
    parts = [Part()]
    for number, line in lines:
        if line.startswith(b"m="):
            parts.append(Part(number, line[2:]))
        elif line.startswith(b"a="):
            parts[-1].attributes.append(attribute(number, line))
    return parts


# ---- m-lines


def is_port(word):
    return re.fullmatch(rb"[0-9]+(/[0-9]+)?", word) and int(word.split(b"/")[0]) <= 65535


def are_formats(kind, words):
    if kind == "app":
        return all(re.fullmatch(TOKEN, word) for word in words)
    return kind == "unknown" or all(re.fullmatch(rb"[0-9]+", word) and int(word) <= 127 for word in words)


def is_head(head):
    words = head.split(b" ")
    if len(words) < 3 or not all(words) or not re.fullmatch(TOKEN, words[0]) or not is_port(words[1]):
        return False
    kind = KINDS.get(words[0], "unknown")
    return (kind == "unknown" or words[2] in PROTOCOLS[kind]) and are_formats(kind, words[3:])


# How many different rids a list names: of alternatives the first one, without the marks before it.
def layers_in(text):
    rids = [layer.split(b",")[0].lstrip(b"~") for layer in text.split(b";")]
    return len(set(rids)) if all(re.fullmatch(NAME, rid) for rid in rids) else None


# How many layers are sent and received, of the first attribute that tells them in its form.
def simulcast(part):
    for value in part.values(b"simulcast", rb".*"):
        words = value.split(b" ")
        counts = {way: layers_in(text) for way, text in zip(words[::2], words[1::2])}
        if len(words) in (2, 4) and len(counts) == len(words) // 2 and set(counts) <= {b"send", b"recv"} and all(counts.values()):
            return counts.get(b"send", 0), counts.get(b"recv", 0)
    return None


def read_line(part):
    kind, port = part.head.split(b" ")[:2]
    kind = KINDS.get(kind, "unknown")
    direction = (part.flags(DIRECTIONS) or [b"sendrecv"])[0].decode()
    mid = part.values(b"mid", NAME)[0].decode()
    return Line(mid, kind, None if kind == "app" else direction, int(port.split(b"/")[0]) > 0, simulcast(part))


# ---- refused lines


# Of the two lines that a text begins with.
def refused_at_start(lines, count):
    if lines and lines[0][1] != b"v=0":
        yield lines[0][0]
    if len(lines) < 2:
        yield count + 1
        return
    number, line = lines[1]
    words = line[2:].split(b" ")
    if not line.startswith(b"o=") or len(words) != 6 or not all(words) or not re.fullmatch(rb"[0-9]+", words[1]):
        yield number


# Of a session part or a line part.
def refused_in(part):
    yield from part.others(b"setup", rb"actpass|active|passive")
    yield from part.others(b"fingerprint", TOKEN + rb" [0-9A-Fa-f]{2}(:[0-9A-Fa-f]{2})*")
    if part.head is None:
        groups = [(number, value) for number, name, value in part.attributes if name == b"group" and value is not None]
        yield from (number for number, value in groups if value.split(b" ")[0] == b"BUNDLE" and not re.fullmatch(BUNDLE, value))
        return
    yield from part.others(b"mid", NAME)
    yield from part.others(b"max-message-size", rb"[0-9]+")
    if not is_head(part.head) or sum(name == b"mid" for _, name, _ in part.attributes) != 1:
        yield part.number


def refused_lines(lines, count, parts):
    yield from refused_at_start(lines, count)
    yield from (number for number, line in lines if not re.match(rb"[a-z]=", line))
    for part in parts:
        yield from refused_in(part)


# ---- whole texts


# The bytes of the first INIT chunk that is told, or NO_CHUNK if they are not told as base64.
def chunk_in(part):
    told = part.values(b"sctp-init", rb"[^ ]*")
    if not told:
        return None
    try:
        chunk = base64.b64decode(told[0], validate=True)
    except binascii.Error:
        return NO_CHUNK
    return chunk if base64.b64encode(chunk) == told[0] else NO_CHUNK


# The first that is there: in the session part, or else in the order of lines.
def first_of(found):
    return next((value for value in found if value), None)


def read(text):
    lines, count = numbered(text)
    parts = parts_of(lines)
    refused = list(refused_lines(lines, count, parts))
    if refused:
        raise Refused(f"2 SDP parse error at line {min(refused)}")
    session, said = parts[0], [read_line(part) for part in parts[1:]]
    groups = [value.decode().split(" ")[1:] for value in session.values(b"group", BUNDLE)]
    setups = [value for part in parts for value in part.values(b"setup", rb".*")]
    about = {
        "lite": bool(session.flags([b"ice-lite"])),
        "credentials": first_of(part.credentials() for part in parts),
        "fingerprint": any(part.values(b"fingerprint", rb".*") for part in parts),
        "setup": setups[0].decode() if setups else "actpass",
    }
    for part, line in zip(parts[1:], said):
        if line.kind == "app" and "chunk" not in about:
            sizes = part.values(b"max-message-size", rb".*")
            about["chunk"], about["longest"] = chunk_in(part), min(int(sizes[0]), 2**32 - 1) if sizes else 65536
    return Said(said, groups, **about)
