"""Shapes of sessions: the changes of each round, the same for either side, and what is compared after a round.

A change is a name with its words. The words #0, #1 stand for the mids of the first and second media line.
"""
import random
import re

DIRECTIONS = ("sendrecv", "sendonly", "recvonly", "inactive")
INVERSE = {"sendrecv": "sendrecv", "sendonly": "recvonly", "recvonly": "sendonly", "inactive": "inactive"}
AUDIO, VIDEO = ("audio", "sendrecv"), ("video", "sendrecv")
CHANNEL = ("channel",)

# What the side that offers does in each round.
SHAPES = {
    "one audio line": [[AUDIO]],
    "audio and video": [[AUDIO, VIDEO]],
    "data": [[CHANNEL]],
    "audio, video and data": [[AUDIO, VIDEO, CHANNEL]],
    "directions": [[(kind, direction) for kind in ("audio", "video") for direction in DIRECTIONS]],
    "a direction turned": [[AUDIO, VIDEO], [("dir", "#0", "sendonly")], [("dir", "#0", "inactive")], [("dir", "#0", "sendrecv")]],
    "stop": [[AUDIO, VIDEO, CHANNEL], [("stop", "#1")]],
    "recycle": [[AUDIO, VIDEO, CHANNEL], [("stop", "#1")], [VIDEO]],
    "restart": [[AUDIO, CHANNEL], [("restart",)]],
    "simulcast": [[("layers",)], [AUDIO]],
    "50 lines": [[("video", "recvonly")] * 50],
    "no codec in common": [[("codec", "audio", "pcmu"), VIDEO]],
    "SNAP": [[CHANNEL], [AUDIO]],
}
# The settings of the engine that are not the usual ones.
SETTINGS = {"SNAP": "session-ids snap"}

# The sides take turns, with these settings of the engine: the second side adds lines to those of the first.
OTHER = {"theirs": "ours", "ours": "theirs"}
TURNS = {
    "lines of both": ("session-ids", [[AUDIO, VIDEO], [AUDIO, VIDEO], [VIDEO]]),
    "lines of both, numbers of the configuration": ("", [[AUDIO, VIDEO], [AUDIO, VIDEO], [VIDEO]]),
}

# As rtc_talk says it: simulcast and codecs are its own.
def for_engine(change):
    if change[0] == "layers":
        return ("video", "sendonly", "send")
    if change[0] == "channel":
        return ("channel", "c")
    if change[0] == "codec":
        return ("audio", "sendrecv")
    if change[0] == "restart":
        return ("restart", "keep")
    return change


# The changes with the mids that they name.
def named(changes, mids):
    return [tuple(mids[int(word[1:])] if word.startswith("#") else word for word in change) for change in changes]


# Media lines of a text: kind, port, formats, mid, direction, header extensions.
def media_lines(text):
    found = []
    for part in re.split(r"\r?\nm=", text)[1:]:
        words = part.splitlines()[0].split()
        mid = re.search(r"^a=mid:(\S+)", part, re.M)
        direction = re.search(r"^a=(sendrecv|sendonly|recvonly|inactive)\r?$", part, re.M)
        extensions = dict(re.findall(r"^a=extmap:(\d+)(?:/\S+)? (\S+)", part, re.M))
        found.append({"kind": words[0], "port": words[1], "formats": words[3:], "mid": mid and mid.group(1),
                      "direction": direction.group(1) if direction else "sendrecv", "extensions": extensions})
    return found


# The directions of a stack by the answer, where it has no call for them: `side` is who offered.
def directions_of(answer, side):
    lines = [(line["mid"], line["direction"]) for line in media_lines(answer) if line["port"] != "0"]
    return [[mid, direction if side == "ours" else INVERSE[direction]] for mid, direction in lines]


# Whether a number denotes two extensions in a text.
def has_two_meanings(text):
    meanings = {}
    return any(meanings.setdefault(number, uri) != uri for line in media_lines(text) for number, uri in line["extensions"].items())


# What a round left different at both sides, in words; nothing if all is as it has to be.
def compare(offer, answer, ours, theirs, engine_text):
    offered, answered = media_lines(offer), media_lines(answer)
    if len(offered) != len(answered):
        return "the answer has other lines"
    for one, other in zip(offered, answered):
        if one["kind"] != other["kind"] or one["kind"] == "application" or "0" in (one["port"], other["port"]):
            continue
        if not set(other["formats"]) <= set(one["formats"]):
            return "the answer has other payload types"
        if any(one["extensions"].get(number) != uri for number, uri in other["extensions"].items()):
            return "the answer has other extensions"
    if engine_text and has_two_meanings(engine_text):
        return "a number denotes two extensions"
    directions = {mid: direction for mid, direction in theirs if mid is not None}
    for mid, _, direction, state in ours:
        seen = directions.get(mid)
        if seen is None or seen == "none":
            continue
        if seen not in (("inactive", "stopped") if state == "stopped" else (INVERSE[direction],)):
            return f"{mid} is {direction} here and {seen} there"
    return None


# A random session: rounds of changes, each with the side of these that offers. The lines are added by one side, or by both.
def random_session(seed, can, sides=("ours", "theirs"), both=False):
    chance = random.Random(seed)
    allowed = [direction for direction in DIRECTIONS if direction in can or direction.startswith("send")]
    adder, rounds, lines, channel = chance.choice(sides), [], 0, False
    for place in range(chance.randint(3, 8)):
        side = adder if place == 0 else chance.choice(sides)
        changes, known = [], lines
        for _ in range(chance.randint(1, 2)):
            what = chance.random()
            if (both or side == adder) and (what < 0.5 or lines == 0):
                changes.append((chance.choice(("audio", "video")), chance.choice(allowed if side == "theirs" else DIRECTIONS)))
                lines += 1
            elif what < 0.6 and not channel:
                changes.append(CHANNEL)
                channel = True
            elif what < 0.9 and known and "dir" in can:
                changes.append(("dir", f"#{chance.randrange(known)}", chance.choice(DIRECTIONS)))
        if changes:
            rounds.append((side, changes))
    return rounds
