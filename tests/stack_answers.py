#!/usr/bin/env python3
"""Writes what a fresh peer answers to each offer of another stack in crates/rtc_examples_peers/data/offers/, by the rules of
docs/FORMATS.md ("What media lines have of them", "Which descriptions a peer accepts"): NAME.answer for NAME.offer, which has of the lines
of the answer's text the m-lines, mids, extensions and directions, in their order, or `refused TEXT`. With --check nothing is written, and what is not current is refused.

usage: tests/stack_answers.py [--check]
"""
import glob
import os
import sys

OFFERS = os.path.join(os.path.dirname(os.path.dirname(os.path.abspath(__file__))), "crates", "rtc_examples_peers", "data", "offers")
# The codecs that are on by default, in their order: name, clock, channels, and whether packets are sent again.
AUDIO = [("opus", 48000, 2, False)]
VIDEO = [(name, 90000, 1, True) for name in ("vp8", "h264", "h265", "vp9", "av1")]
EXTENSIONS = {
    "urn:ietf:params:rtp-hdrext:ssrc-audio-level",
    "http://www.webrtc.org/experiments/rtp-hdrext/abs-send-time",
    "http://www.ietf.org/id/draft-holmer-rmcat-transport-wide-cc-extensions-01",
    "urn:ietf:params:rtp-hdrext:sdes:mid",
    "urn:ietf:params:rtp-hdrext:sdes:rtp-stream-id",
    "urn:ietf:params:rtp-hdrext:sdes:repaired-rtp-stream-id",
    "urn:3gpp:video-orientation",
}
INVERSE = {"sendrecv": "sendrecv", "sendonly": "recvonly", "recvonly": "sendonly", "inactive": "inactive"}


# The lines of a part that begin so, without that.
def values(part, front):
    return [line[len(front) :] for line in part if line.startswith(front)]


# For each number of a list of formats: its codec in lower case, its clock and its channels.
def maps(part):
    found = {}
    for value in values(part, "a=rtpmap:"):
        pt, form = value.split(" ", 1)
        name, clock, channels = (form.split("/") + ["1"])[:3]
        found.setdefault(pt, (name.lower(), int(clock), int(channels)))
    return found


# Which number sends the packets of another again.
def resent(part, rows):
    found = {}
    for value in values(part, "a=fmtp:"):
        pt, text = value.split(" ", 1)
        if rows.get(pt, ("",))[0] == "rtx" and text.startswith("apt="):
            found.setdefault(text[4:], pt)
    return found


def payloads(part, own):
    rows, formats = maps(part), part[0].split(" ")[3:]
    again = resent(part, rows)
    for name, clock, channels, resends in own:
        fits = [pt for pt in formats if rows.get(pt) == (name, clock, channels)]
        if fits:
            rtx = again.get(fits[0]) if resends else None
            yield f"{fits[0]} {rtx}" if rtx else fits[0]


def extensions(part):
    for value in values(part, "a=extmap:"):
        number, uri = value.split(" ")[:2]
        if uri in EXTENSIONS:
            yield f"a=extmap:{number.split('/')[0]} {uri}"


# The lines of an answer that are compared, for a line of its offer. An answer names a line of data channels by its own words.
def answered(part, group):
    kind, port = part[0][2:].split(" ")[:2]
    mid = values(part, "a=mid:")[0]
    offered = [line[2:] for line in part if line[2:] in INVERSE] + ["sendrecv"]
    rejected = port == "0" and mid not in group
    place = "0" if rejected else "9"
    if kind == "application":
        return [f"m=application {place} UDP/DTLS/SCTP webrtc-datachannel", f"a=mid:{mid}"]
    direction = "inactive" if rejected else INVERSE[offered[0]]
    head = " ".join([f"m={kind} {place} UDP/TLS/RTP/SAVPF", *payloads(part, VIDEO if kind == "video" else AUDIO)])
    return [head, f"a=mid:{mid}", *extensions(part), f"a={direction}"]


def answer(offer):
    parts = [[]]
    for line in offer.replace("\r\n", "\n").split("\n"):
        if line.startswith("m="):
            parts.append([])
        parts[-1].append(line)
    groups = values(parts[0], "a=group:BUNDLE")
    if not groups:
        return "refused no BUNDLE group\n"
    return "".join(f"{line}\n" for part in parts[1:] for line in answered(part, groups[0].split()))


def main():
    check = sys.argv[1:] == ["--check"]
    if sys.argv[1:] and not check:
        sys.exit(__doc__)
    wrong = 0
    for path in sorted(glob.glob(os.path.join(OFFERS, "*.offer"))):
        with open(path, encoding="utf-8", newline="") as file:
            text, to = answer(file.read()), f"{path[: -len('offer')]}answer"
        if not check:
            with open(to, "w", encoding="utf-8") as file:
                file.write(text)
            continue
        with open(to, encoding="utf-8") as file:
            if file.read() != text:
                print(f"WRONG {os.path.basename(to)}: run tests/stack_answers.py")
                wrong = 1
    return wrong


if __name__ == "__main__":
    sys.exit(main())
