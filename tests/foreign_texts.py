"""Session descriptions that anybody may have written, for tests/random_scripts.py: the text of rows, in the name of a side of the pair.

It is written from docs/FORMATS.md and RFC 8866 and not from the program.
"""
import hashlib

from datagram_bytes import CERTIFICATES

ADDRESSES = {"L": "1.1.1.1 1000", "R": "2.2.2.2 2000"}
FORMATS = {"audio": ("111", "opus/48000/2"), "video": ("96", "VP8/90000")}


# The lines of one row. A row of data channels has the longest message that its side takes.
def line_text(row, about, longest):
    port = 0 if row.stopped else 9
    if row.kind == "app":
        return [f"m=application {port} UDP/DTLS/SCTP webrtc-datachannel", *about, f"a=mid:{row.mid}", "a=sctp-port:5000", f"a=max-message-size:{longest}"]
    number, codec = FORMATS[row.kind]
    return [f"m={row.kind} {port} UDP/TLS/RTP/SAVPF {number}", *about, f"a=mid:{row.mid}", f"a={row.direction}", f"a=rtpmap:{number} {codec}"]


# What a side would say of these rows, with its credentials, its certificate and its candidate.
def foreign_text(at, ufrag, longest, rows, setup):
    digest = hashlib.sha256(CERTIFICATES[at]).hexdigest().upper()
    fingerprint = ":".join(digest[i:i + 2] for i in range(0, len(digest), 2))
    about = [
        "c=IN IP4 0.0.0.0",
        f"a=candidate:1 1 udp 2130706431 {ADDRESSES[at]} typ host",
        f"a=ice-ufrag:{ufrag}",
        f"a=ice-pwd:{ufrag[1:] * 2}",
        f"a=fingerprint:sha-256 {fingerprint}",
        f"a=setup:{setup}",
    ]
    group = "".join(f" {row.mid}" for row in rows if not row.stopped)
    lines = ["v=0", "o=- 7 1 IN IP4 0.0.0.0", "s=-", "t=0 0", f"a=group:BUNDLE{group}"]
    for row in rows:
        lines += line_text(row, about, longest)
    return lines
