#!/usr/bin/env python3
"""Makes the orderly scripts of tests/data/scripts/orderly/ from a seed, and the list `rounds` of them, with how many rounds each is
to finish. With --check nothing is written, and what is not current is refused.

usage: tests/orderly_scripts.py [--check]

A list of steps is orderly where each offer is accepted by the other side, and that answer by the offerer, before the next one is
made; no step stops the first line; and the offerer of an open round applies no channel. Whether a step is in order is told by
`Course` below, which knows the rows of both sides without their mids, the number of texts, and the round that is open. It is
written from the rules of docs/FORMATS.md and not from the program. Each round of such a list has to end: want of memory aside,
every answer of it is `finished`.
"""
import collections
import glob
import os
import random
import sys

FOLDER = os.path.join(os.path.dirname(os.path.abspath(__file__)), "data", "scripts", "orderly")
SEED = 20
INVERSE = {"sendrecv": "sendrecv", "sendonly": "recvonly", "recvonly": "sendonly", "inactive": "inactive"}
DIRECTIONS = list(INVERSE)
OTHER = {"L": "R", "R": "L"}
LABELS = ["-", "61", "c3a9", "f09f98802d", "63686174"]

# A line of a side, without its mid. That of the data channels has the kind "app", and is never stopped.
Row = collections.namedtuple("Row", "kind direction stopped remote")
APP = Row("app", None, False, False)
# A round: its offerer, the numbers of its offer and of its answer, if there is one, and the rows that the last of them describes.
Round = collections.namedtuple("Round", "offerer offer answer said")


class NotOrderly(Exception):
    pass


# Draws by `random()` alone, whose numbers are the same in every version of Python.
class Chance:
    def __init__(self, seed):
        self.source = random.Random(seed)

    def below(self, count):
        return int(self.source.random() * count)

    def choice(self, items):
        return items[self.below(len(items))]

    def weighted(self, weights):
        return self.choice([item for item, weight in weights.items() for _ in range(weight)])


# The row that a line of a text leaves, from the row at its place.
def row_after(before, line, offer):
    if line.kind == "app":
        return APP
    remote = before.remote if before else offer
    if line.stopped or (before and before.stopped):
        return Row(line.kind, "inactive", True, remote)
    direction = INVERSE[line.direction]
    if before and not before.remote and before.direction == "inactive" and direction == "sendonly":
        direction = "inactive"
    return Row(line.kind, direction, False, remote)


def rows_after(rows, said, offer):
    known = rows + [None] * (len(said) - len(rows))
    return [row_after(before, line, offer) for before, line in zip(known, said)] + rows[len(said):]


# The row after a direction or a stop, and whether it changed. A direction and a stop change live media lines alone.
def turned(row, direction, stop):
    if row.kind == "app" or row.stopped or (row.direction == direction and not stop):
        return row, False
    return row._replace(direction=direction, stopped=stop), True


# What ops leave of the rows of a side, which rows they add, and whether they stage something that has to be offered.
def staged(rows, ops):
    rows, added, offers = list(rows), [], False
    has_app = APP in rows
    for op in ops:
        word, *parts = op.split(":")
        if word in ("audio", "video"):
            added.append(Row(word, parts[0], False, False))
        elif word == "channel" and APP not in rows + added:
            added.append(APP)
        elif word in ("dir", "stop") and int(parts[0]) < len(rows):
            place = int(parts[0])
            rows[place], changed = turned(rows[place], parts[1] if word == "dir" else "inactive", word == "stop")
            offers = offers or changed
        offers = offers or word in ("audio", "video", "restart") or (word == "channel" and not has_app)
    return rows, added, offers


class Course:
    def __init__(self):
        self.rows, self.texts, self.open = {"L": [], "R": []}, 0, None
        self.lines, self.finished = [], 0

    def may_stage(self, ops):
        return "stop:0" not in ops

    # Ops that are applied make an offer only between rounds, and channels of the offerer would supersede its token.
    def may_apply(self, at, ops):
        adds_channel = any(op.startswith("channel:") for op in ops)
        supersedes = self.open is not None and self.open.offerer == at and adds_channel
        return self.may_stage(ops) and not supersedes and not (self.open and staged(self.rows[at], ops)[2])

    def negotiate(self, at, ops, apply):
        if not (self.may_apply(at, ops) if apply else self.may_stage(ops)):
            raise NotOrderly(ops)
        rows, added, offers = staged(self.rows[at], ops)
        self.rows[at] = rows
        self.lines.append(" ".join([at, "offer" if apply else "stage", *ops]))
        if apply and offers:
            if not rows + added:
                raise NotOrderly(ops)
            self.open = Round(at, self.texts, None, rows + added)
            self.texts += 1

    def accept(self):
        at = OTHER[self.open.offerer]
        self.rows[at] = rows_after(self.rows[at], self.open.said, True)
        self.open = self.open._replace(answer=self.texts, said=self.rows[at])
        self.texts += 1
        self.lines.append(f"{at} accept {self.open.offer}")

    def answer(self):
        at = self.open.offerer
        self.rows[at] = rows_after(self.rows[at], self.open.said, False)
        self.lines.append(f"{at} answer {self.open.offer} {self.open.answer}")
        self.open, self.finished = None, self.finished + 1


# How often each op is drawn.
EVERY = {"add": 2, "dir": 4, "stop": 1, "channel": 2, "keep": 1, "new": 1}
# Of each script: its rounds, who offers ("LR" is in turn), the lite side, the weights of its ops, the ops of its first offers, how many
# steps may come between those of a round, of which kinds, how many lines there may be, whether its last round ends, and the sides whose
# association may be started by descriptions.
DEFAULTS = ("any", None, EVERY, [["audio:sendrecv", "video:sendrecv"]], 0, ("stage",), 9, True, "")
Theme = collections.namedtuple("Theme", "rounds offerers lite ops first between kinds lines ends snap", defaults=DEFAULTS)
THREE = [
    ["audio:sendrecv", "video:recvonly", "channel:61"],
    ["dir:0:sendonly", "restart:keep", "video:inactive"],
    ["stop:1", "channel:-", "restart:new"],
]
THEMES = {
    "added_lines": Theme(20, ops={**EVERY, "add": 20}, lines=40),
    "answerer_adds_channels": Theme(30, between=2, kinds=("channel",), first=[["audio:sendrecv", "channel:61"]]),
    "both_in_turn": Theme(30, "LR"),
    "channels_before_media": Theme(20, first=[["channel:-"]], ops={**EVERY, "channel": 6}),
    "channels_between_rounds": Theme(40, ops={**EVERY, "channel": 12}, between=2, kinds=("channel",), first=[["channel:61"]]),
    "crossed_steps": Theme(45, between=3, kinds=("stage", "nothing", "channel")),
    "directions_of_one_line": Theme(60, "LR", ops={"dir": 1}, first=[["audio:sendrecv"]], lines=1),
    "every_op_in_sixty_rounds": Theme(60, between=1, kinds=("stage", "nothing", "channel")),
    "every_op_in_three_rounds": Theme(3, "LR", first=THREE),
    "left_alone": Theme(20, "L"),
    "left_lite": Theme(25, lite="L"),
    "lines_stopped": Theme(40, ops={**EVERY, "add": 6, "stop": 9}, lines=40),
    "nothing_staged": Theme(10, between=3, kinds=("nothing",)),
    "open_at_the_end": Theme(12, between=1, ends=False),
    "restarts_of_both_kinds": Theme(60, ops={**EVERY, "keep": 8, "new": 8}),
    "restarts_that_clear": Theme(30, "RL", ops={**EVERY, "keep": 0, "new": 9}),
    "restarts_that_keep": Theme(30, "LR", ops={**EVERY, "keep": 9, "new": 0}),
    "right_alone": Theme(20, "R", first=[["video:sendrecv"]]),
    "right_lite": Theme(25, lite="R", ops={**EVERY, "keep": 4, "new": 4}),
    "staged_within_rounds": Theme(40, between=3),
    "starts_by_descriptions": Theme(40, snap="LR", ops={**EVERY, "channel": 4}, between=2, kinds=("channel", "stage")),
    "starts_told_by_one_side": Theme(20, snap="R", first=[["channel:61"]]),
}


# An op of this sort, for a side with these rows.
def draw_op(chance, sort, rows):
    media = [place for place, row in enumerate(rows) if row.kind != "app"]
    if sort == "add":
        return f"{chance.choice(['audio', 'video'])}:{chance.choice(DIRECTIONS)}"
    if sort == "dir" and media:
        return f"dir:{chance.choice(media)}:{chance.choice(DIRECTIONS)}"
    if sort == "stop" and max(media, default=0) > 0:
        return f"stop:{chance.choice([place for place in media if place > 0])}"
    if sort == "channel":
        return f"channel:{chance.choice(LABELS)}"
    return f"restart:{sort}" if sort in ("keep", "new") else None


def draw_ops(chance, theme, rows):
    weights = {sort: 0 if sort == "add" and len(rows) >= theme.lines else weight for sort, weight in theme.ops.items()}
    drawn = [draw_op(chance, chance.weighted(weights), rows) for _ in range(chance.choice([1, 1, 1, 2, 2, 3, 4]))]
    return [op for op in drawn if op]


# Ops that stage nothing: none at all, a direction that a line has, a line that is stopped, and places without a media line.
def idle_ops(chance, rows):
    ops = [f"dir:{len(rows) + 3}:sendonly", f"stop:{len(rows) + 1}"]
    ops += [f"dir:{place}:{row.direction}" for place, row in enumerate(rows) if row.kind != "app"]
    ops += [f"dir:{place}:recvonly" for place, row in enumerate(rows) if row.kind == "app" or row.stopped]
    ops += [f"stop:{place}" for place, row in enumerate(rows) if place > 0 and (row.kind == "app" or row.stopped)]
    return [chance.choice(ops) for _ in range(chance.below(3))]


# Steps that make no offer, by either side.
def step_between(chance, theme, course):
    for _ in range(chance.below(theme.between + 1)):
        at, kind = chance.choice("LR"), chance.choice(theme.kinds)
        rows = course.rows[at]
        if kind == "channel":
            ops = [f"channel:{chance.choice(LABELS)}" for _ in range(1 + chance.below(2))]
            if APP in rows and course.may_apply(at, ops):
                course.negotiate(at, ops, True)
        elif kind == "nothing":
            course.negotiate(at, idle_ops(chance, rows), True)
        else:
            course.negotiate(at, draw_ops(chance, theme, rows), False)


def play_round(chance, theme, course, at, ops):
    while not staged(course.rows[at], ops)[2]:
        ops = draw_ops(chance, theme, course.rows[at])
    course.negotiate(at, ops, True)
    step_between(chance, theme, course)
    course.accept()
    step_between(chance, theme, course)


def play(chance, theme):
    course = Course()
    for number in range(theme.rounds if theme.ends else theme.rounds + 1):
        at = chance.choice("LR") if theme.offerers == "any" else theme.offerers[number % len(theme.offerers)]
        play_round(chance, theme, course, at, theme.first[number] if number < len(theme.first) else [])
        if number < theme.rounds:
            course.answer()
            step_between(chance, theme, course)
    return course


# Each file of the folder, with what it is to hold.
def files():
    made, rounds, words = {}, "", set()
    for number, (name, theme) in enumerate(sorted(THEMES.items())):
        course = play(Chance(SEED * 1000 + number), theme)
        settings = [f"set {theme.lite} lite"] if theme.lite else []
        settings += [f"set {at} snap" for at in theme.snap]
        made[f"{name}.orderly"] = "".join(f"{line}\n" for line in ["str0m-pair 1", *settings, *course.lines])
        rounds += f"{name} {course.finished}\n"
        words |= {word for line in course.lines for word in line.replace(":", " ").split()}
    every = "offer stage accept answer audio video dir stop channel restart keep new".split() + DIRECTIONS
    missing = set(every) - words
    if missing:
        sys.exit(f"no script has {sorted(missing)}")
    return {**made, "rounds": rounds}


def main():
    check = sys.argv[1:] == ["--check"]
    if sys.argv[1:] and not check:
        sys.exit(__doc__)
    made = files()
    there = {os.path.basename(path) for path in glob.glob(os.path.join(FOLDER, "*"))}
    wrong = [f"{name} is not made here" for name in sorted(there - set(made))]
    if not check:
        os.makedirs(FOLDER, exist_ok=True)
    for name, text in made.items():
        path = os.path.join(FOLDER, name)
        if not check:
            with open(path, "w", encoding="utf-8") as out:
                out.write(text)
        elif name not in there or open(path, encoding="utf-8").read() != text:
            wrong.append(f"{name}: run tests/orderly_scripts.py")
    for what in wrong:
        print(f"WRONG {what}")
    return 1 if wrong else 0


if __name__ == "__main__":
    sys.exit(main())
