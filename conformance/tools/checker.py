#!/usr/bin/env python3
"""checker.py check CERT: confirms or refuses a certificate by the rules of docs/.
checker.py prove TABLE: confirms or refuses a table, and says what it proves.
checker.py merge TABLE TABLE OUT: joins two tables.

A checker outside the proof, slow and short, that follows docs/certificate.md, docs/geometry.md and docs/planning.md rule by
rule. It prints the lines that `brake` prints for the same words, and ends with its status. The tool `mutants` beside it
changes one rule of it at a time.
"""
import re
import sys

NONE = float("inf")  # the worth `none`, above every number


class Refused(Exception):
    """A certificate or a table is refused; its words are those behind `certificate refused`, or behind a table's number."""


# ---- docs/certificate.md: words ----

NAME = re.compile(rb"[\x21-\x7e]{1,24}")
NUMBER = re.compile(rb"0|[1-9][0-9]{0,17}")
SIGNED = re.compile(rb"0|-?[1-9][0-9]{0,17}")


def name(word):
    return word if NAME.fullmatch(word) else None


def signed(word):
    return int(word) if SIGNED.fullmatch(word) else None


def below(end, least=0):
    """A number from `least` on and below `end`."""
    def read(word):
        number = int(word) if NUMBER.fullmatch(word) else None
        return number if number is not None and least <= number < end else None
    return read


def one_of(**values):
    return lambda word: values.get(word.decode("latin-1"))


def worth(word):
    if word == b"none":
        return NONE
    number = int(word) if NUMBER.fullmatch(word) else None
    return number if number is not None and number <= 1000000000 else None


SIDE = one_of(N="N", E="E", S="S", W="W")
DIR = one_of(up=1, down=-1)
BACK = one_of(P=0, C=1)
HALF = one_of(B="B", F="F")
BOX = below(25)
QUARTER = below(5, 1)
INDEX = below(64)


# ---- docs/certificate.md: lines ----

class Lines:
    """The lines of a text. A line counts where it ends with a line feed."""

    def __init__(self, text):
        self.lines, self.at = text.split(b"\n"), 0

    def words(self):
        """The words of the next line, which has to be whole."""
        if self.at == len(self.lines) - 1:
            raise Refused("1 2")
        return self.lines[self.at].split(b" ")

    def bad(self):
        return Refused(f"1 1 {self.at + 1}")

    def is_next(self, keyword):
        return self.words()[0] == keyword

    def take(self, keyword, *kinds):
        """The values of the next line, which has to have this keyword and a word of each kind behind it."""
        words = self.words()
        if words[0] != keyword or len(words) != 1 + len(kinds):
            raise self.bad()
        values = [kind(word) for kind, word in zip(kinds, words[1:])]
        if None in values:
            raise self.bad()
        self.at += 1
        return values

    def take_up_to(self, most, keyword, *kinds):
        """The values of at most so many lines of this keyword."""
        taken = []
        while len(taken) < most and self.is_next(keyword):
            taken.append(self.take(keyword, *kinds))
        return taken


class Face:
    def __init__(self, values):
        if len(values) == 3:
            self.name, self.w, self.l = values
            self.on = self.side = self.at = self.s = None
        else:
            self.name, self.on, self.side, self.at, self.w, self.l, self.s = values


class Stage:
    def __init__(self, lines, version):
        self.x0, self.x1 = lines.take(b"stage", signed, signed)
        self.punch, self.punch_height, self.nose = lines.take(b"punch", name, signed, signed)
        self.punch_boxes = lines.take_up_to(8, b"box", *[signed] * 4)
        self.die, self.die_height, self.v, self.least = lines.take(b"die", name, signed, signed, signed)
        self.die_boxes = lines.take_up_to(8, b"box", *[signed] * 4)
        pieces = len(lines.words()) - 1
        if not 1 <= pieces <= 32:
            raise lines.bad()
        self.pieces = lines.take(b"pieces", *[signed] * pieces)
        self.load, self.limit = lines.take(b"load", signed, signed) if version == 2 else (0, 0)


class Job:
    def __init__(self, lines, version):
        self.material, self.t, self.r, self.q = lines.take(b"part", name, signed, signed, signed)
        self.faces = [Face(lines.take(b"face", name, signed, signed))]
        while len(self.faces) < 13 and lines.is_next(b"face"):
            on = below(len(self.faces))
            self.faces.append(Face(lines.take(b"face", name, on, SIDE, signed, signed, signed, DIR)))
        self.bed = lines.take(b"bed", signed, signed)
        self.frames = lines.take_up_to(4, b"frame", signed, signed)
        self.upper = lines.take_up_to(16, b"upper", *[signed] * 6)
        self.lower = lines.take_up_to(16, b"lower", *[signed] * 6)
        [self.uncovered] = lines.take(b"uncovered", signed)
        self.gauge = lines.take(b"gauge", *[signed] * 8)
        self.cost = lines.take(b"cost", *[signed] * 6)
        [self.gang] = lines.take(b"gang", signed) if version == 2 else [0]
        [self.force] = lines.take(b"force", signed) if version == 2 else [0]
        [self.fine] = lines.take(b"fine", signed) if version == 2 and lines.is_next(b"fine") else [None]
        self.stages = []
        while len(self.stages) < 6 and lines.is_next(b"stage"):
            self.stages.append(Stage(lines, version))
        self.bends = range(1, len(self.faces))
        self.tau = self.t // 2
        self.h = self.q - self.tau
        self.full = 2 ** len(self.bends) - 1
        self.depth = self.fine or 0


def action_words(bends, stages):
    action = (below(bends + 1, 1), BACK, below(stages))
    return action


def take_row(lines, job, stages):
    return lines.take(b"row", below(job.full), below(24), below(stages), worth)


class Certificate:
    """A text that is well formed: its job, claim, steps, and rows, each with its notes by the actions' numbers."""

    def __init__(self, text):
        lines = Lines(text)
        lines.words()
        version = {b"brake-cert 1": 1, b"brake-cert 2": 2}.get(lines.lines[0])
        if version is None:
            raise lines.bad()
        lines.at = 1
        self.job = job = Job(lines, version)
        [self.claim] = lines.take(b"claim", worth)
        if not is_valid(job):
            raise Refused("1 4")
        bends, stages = len(job.bends), len(job.stages)
        action = action_words(bends, stages)
        face = below(bends + 1)
        self.steps = lines.take_up_to(bends if self.claim < NONE else 0, b"step", *action, face, face)
        if version == 1 and self.claim < NONE and len(self.steps) < bends:
            raise lines.bad()
        self.read_rows(lines, action)

    def read_rows(self, lines, action):
        job, stages = self.job, len(self.job.stages)
        self.rows = []
        while lines.is_next(b"row"):
            *key, value = take_row(lines, job, stages)
            if self.rows and key <= self.rows[-1][0]:
                lines.at -= 1
                raise lines.bad()
            self.rows.append((key, value, self.notes(lines, key[0], action)))
        lines.take(b"end")
        if lines.lines[lines.at:] != [b""]:
            raise Refused("1 3")

    def notes(self, lines, mask, action):
        notes, last = {}, -1
        while lines.is_next(b"x"):
            words = lines.words()
            reason = REASONS.get(words[4]) if len(words) > 4 else None
            if reason is None:
                raise lines.bad()
            arguments = [below(len(self.job.stages)) if kind is None else kind for kind in reason]
            bend, back, stage, kind, *others = lines.take(b"x", *action, below(10, 1), *arguments)
            number = action_number(self.job, bend, back, stage)
            if number <= last or not is_lead(self.job, mask, bend):
                lines.at -= 1
                raise lines.bad()
            notes[number], last = (kind, *others), number
        return notes


class Table(Certificate):
    """A table's text that is well formed: its job and rows. It claims nothing."""

    def __init__(self, text):
        lines = Lines(text)
        lines.words()
        if lines.lines[0] != b"brake-table 1":
            raise lines.bad()
        lines.at = 1
        self.job = job = Job(lines, 2)
        self.job_lines = lines.lines[1:lines.at]
        bends, stages, self.claim = len(job.bends), len(job.stages), 0
        if lines.is_next(b"row"):
            take_row(lines, job, stages)
        else:
            lines.take(b"end")
        lines.at -= 1
        is_sound = is_valid(job)
        if not is_sound:
            raise Refused("1 4")
        self.read_rows(lines, action_words(bends, stages))

    def text(self):
        lines = [b"brake-table 1", *self.job_lines]
        for key, value, notes in self.rows:
            lines.append(b"row %d %d %d %s" % (*key, b"none" if value == NONE else b"%d" % value))
            for action, reason in sorted(notes.items()):
                bend, back, stage = action_of(self.job, action)
                lines.append(f"x {bend} {'PC'[back]} {stage} {' '.join(map(str, reason))}".encode())
        return b"\n".join([*lines, b"end", b""])


# the words behind the number of a reason; None is a stage of the job
REASONS = {
    b"1": [], b"2": [HALF], b"3": [BOX], b"4": [BOX, QUARTER, INDEX], b"5": [BOX, QUARTER, None],
    b"6": [BOX, QUARTER, INDEX], b"7": [BOX, QUARTER, BOX], b"8": [], b"9": [],
}


# ---- docs/certificate.md: a valid job ----

def is_range(low, high, least, greatest):
    return least <= low < high <= greatest


def is_valid(job):
    return is_part(job) and is_unfolded(job) and is_setup(job)


def is_part(job):
    names = [face.name for face in job.faces]
    return (
        job.t % 2 == 0 and 2 <= job.t <= 50000
        and 1 <= job.r <= 50000
        and job.tau <= job.q <= 100000
        and len(set(names)) == len(names)
        and all(1 <= face.w <= 10000000 and 1 <= face.l <= 10000000 for face in job.faces)
        and all(is_placed(job, job.faces[b]) for b in job.bends)
    )


def is_placed(job, face):
    return (
        not (face.side == "S" and face.on > 0)
        and 0 <= face.at
        and face.at + face.w <= side_length(job.faces[face.on], face.side)
    )


def is_unfolded(job):
    cores = [core(job, f) for f in range(len(job.faces))]
    if any(x1 - x0 < 1 or y1 - y0 < 1 for x0, x1, y0, y1 in cores):
        return False
    for b in job.bends:
        low, high = line(job, b)
        least, greatest = core_range(job, job.faces[b].on, job.faces[b].side)
        if low < least or greatest < high:
            return False
    flat = [image(place(job, 0, f), ((x0, y0, 0), (x1, y1, 0))) for f, (x0, x1, y0, y1) in enumerate(cores)]
    return not any(overlap_flat(a, b) for i, a in enumerate(flat) for b in flat[:i])


def overlap_flat(a, b):
    return all(overlap(a[0][i], a[1][i], b[0][i], b[1][i]) for i in (0, 1))


def is_setup(job):
    far = 20000000
    return (
        is_range(*job.bed, -far, far)
        and all(is_range(*frame, -far, far) for frame in job.frames)
        and all(is_fixed(box, 0, far) for box in job.upper)
        and all(is_fixed(box, -far, 0) for box in job.lower)
        and 0 <= job.uncovered <= 1000000
        and all(0 <= number <= 10000000 for number in job.gauge)
        and job.gauge[3] >= 1 and job.gauge[5] >= 1
        and all(0 <= price <= 1000000 for price in job.cost)
        and job.gang in (0, 1)
        and 0 <= job.force <= 100000000
        and (job.fine is None or 1 <= job.fine <= 12)
        and len(job.stages) >= 1
        and all(is_stage(job, stage) for stage in job.stages)
        and not any(overlap(a.x0, a.x1, b.x0, b.x1) for i, a in enumerate(job.stages) for b in job.stages[:i])
    )


def is_fixed(box, low, high):
    x0, x1, y0, y1, z0, z1 = box
    far = 20000000
    return is_range(x0, x1, -far, far) and is_range(y0, y1, -far, far) and is_range(z0, z1, low, high)


def is_stage(job, stage):
    first = job.stages[0]
    return (
        -20000000 <= stage.x0 <= 20000000
        and stage.x1 == stage.x0 + sum(stage.pieces)
        and all(1 <= piece <= 10000000 for piece in stage.pieces)
        and job.bed[0] <= stage.x0 and stage.x1 <= job.bed[1]
        and 1 <= stage.punch_height <= 1000000
        and 0 <= stage.nose <= stage.punch_height
        and all(is_profile(box, 0, stage.punch_height) for box in stage.punch_boxes)
        and 1 <= stage.die_height <= 1000000
        and stage.v % 2 == 0 and 2 <= stage.v <= 1000000
        and 0 <= stage.least <= 1000000
        and all(is_profile(box, -stage.die_height, 0) for box in stage.die_boxes)
        and 0 <= stage.load <= 1000000
        and 0 <= stage.limit <= 1000000
        and stage.punch_height == first.punch_height
        and stage.die_height == first.die_height
    )


def is_profile(box, low, high):
    y0, y1, z0, z1 = box
    return is_range(y0, y1, -1000000, 1000000) and is_range(z0, z1, low, high)


# ---- docs/geometry.md: faces, cores, lines ----

def overlap(a0, a1, b0, b1):
    """The two ranges share more than an end."""
    return max(a0, b0) < min(a1, b1)


def side_length(face, side):
    return face.w if side in "NS" else face.l


def directions(side):
    """The directions d along a side and o out of it."""
    return {"N": ((1, 0, 0), (0, 1, 0)), "E": ((0, -1, 0), (1, 0, 0)), "S": ((-1, 0, 0), (0, -1, 0)), "W": ((0, 1, 0), (-1, 0, 0))}[side]


def start(face, side):
    return {"N": (0, face.l, 0), "E": (face.w, face.l, 0), "S": (face.w, 0, 0), "W": (0, 0, 0)}[side]


def is_bent(job, f, side):
    return (side == "S" and f > 0) or any(job.faces[b].on == f and job.faces[b].side == side for b in job.bends)


def loss(job, f, side):
    return job.q if is_bent(job, f, side) else 0


def core(job, f):
    face = job.faces[f]
    return loss(job, f, "W"), face.w - loss(job, f, "E"), loss(job, f, "S"), face.l - loss(job, f, "N")


def core_range(job, f, side):
    """The range of a core along a side, from the side's start."""
    before, behind = {"N": "WE", "E": "NS", "S": "EW", "W": "SN"}[side]
    return loss(job, f, before), side_length(job.faces[f], side) - loss(job, f, behind)


def line(job, b):
    """The range of the line of a bend along its side."""
    face = job.faces[b]
    return face.at + loss(job, b, "W"), face.at + face.w - loss(job, b, "E")


def reach(job, b, back):
    """How far the core of the parent (0) or of the child (1) reaches away from the line of a bend."""
    f, side = (b, "S") if back == 1 else (job.faces[b].on, job.faces[b].side)
    x0, x1, y0, y1 = core(job, f)
    return y1 - y0 if side in "NS" else x1 - x0


# ---- docs/geometry.md: turns, maps, places ----
# A turn is the images of the three axes; a map is a turn and a shift.

def times(k, v):
    return tuple(k * a for a in v)


def plus(*vectors):
    return tuple(map(sum, zip(*vectors)))


def apply(turn, v):
    return plus(times(v[0], turn[0]), times(v[1], turn[1]), times(v[2], turn[2]))


def product(f, g):
    """First g, then f."""
    return tuple(apply(f, axis) for axis in g)


def inverse(turn):
    return tuple(zip(*turn))


def after(f, g):
    return product(f[0], g[0]), plus(apply(f[0], g[1]), f[1])


def mapped(f, v):
    return plus(apply(f[0], v), f[1])


def image(f, box):
    a, b = mapped(f, box[0]), mapped(f, box[1])
    return tuple(map(min, a, b)), tuple(map(max, a, b))


UNIT = ((1, 0, 0), (0, 1, 0), (0, 0, 1))
BASES = (
    UNIT,
    ((1, 0, 0), (0, -1, 0), (0, 0, -1)),
    ((0, 0, -1), (0, 1, 0), (1, 0, 0)),
    ((0, 0, 1), (0, 1, 0), (-1, 0, 0)),
    ((1, 0, 0), (0, 0, -1), (0, 1, 0)),
    ((1, 0, 0), (0, 0, 1), (0, -1, 0)),
)
QUARTER_TURN = ((0, 1, 0), (-1, 0, 0), (0, 0, 1))


def attitude(number):
    """Attitude 4f + r: r quarter turns about z, then base turn f."""
    turn = UNIT
    for _ in range(number % 4):
        turn = product(QUARTER_TURN, turn)
    return product(BASES[number // 4], turn)


ATTITUDES = [attitude(number) for number in range(24)]


def has(mask, b):
    return mask >> (b - 1) & 1 == 1


def step_of(job, mask, b):
    """The map from the frame of face b to that of its parent."""
    face = job.faces[b]
    d, o = directions(face.side)
    corner = plus(start(job.faces[face.on], face.side), times(face.at, d))
    if not has(mask, b):
        return (d, o, (0, 0, 1)), plus(corner, times(-2 * job.q, o))
    return (d, (0, 0, face.s), times(-face.s, o)), plus(corner, times(-job.tau, o), (0, 0, -face.s * job.tau))


def place(job, mask, f):
    """The map from the frame of face f to that of face 0."""
    if f == 0:
        return UNIT, (0, 0, 0)
    return after(place(job, mask, job.faces[f].on), step_of(job, mask, f))


def boxes(job, mask):
    """The boxes of the part, by their numbers, in the frame of face 0."""
    found = {}
    for f in range(len(job.faces)):
        x0, x1, y0, y1 = core(job, f)
        found[f] = image(place(job, mask, f), ((x0, y0, -job.tau), (x1, y1, job.tau)))
    for b in job.bends:
        if has(mask, b):
            face = job.faces[b]
            d, o = directions(face.side)
            corner = start(job.faces[face.on], face.side)
            low, high = line(job, b)
            column = (
                plus(corner, times(low, d), times(-job.q, o), (0, 0, -face.s * job.tau)),
                plus(corner, times(high, d), (0, 0, face.s * job.h)),
            )
            found[12 + b] = image(place(job, mask, face.on), column)
    return found


# ---- docs/geometry.md: groups and poses ----

def is_mate(job, a, b):
    one, other = job.faces[a], job.faces[b]
    return (one.on, one.side, one.s) == (other.on, other.side, other.s)


def group(job, mask, b):
    return [c for c in job.bends if is_mate(job, b, c) and not has(mask, c)] if job.gang else [b]


def is_lead(job, mask, b):
    return not has(mask, b) and b == min(group(job, mask, b))


def span(job, bends):
    lines = [line(job, b) for b in bends]
    return min(low for low, _ in lines), max(high for _, high in lines)


def is_beyond(job, bends, f):
    """Face f lies beyond some of the bends."""
    while f > 0:
        if f in bends:
            return True
        f = job.faces[f].on
    return False


def frame_turn(job, b, back):
    """The turn of the parent's frame in the pose."""
    face = job.faces[b]
    k = 1 if back == 1 else -1
    d, o = directions(face.side)
    to_x, to_y, to_z = times(k * face.s, d), times(k, o), (0, 0, face.s)
    return tuple(tuple(sum(a * b for a, b in zip(axis, to)) for to in (to_x, to_y, to_z)) for axis in UNIT)


def attitude_of(job, mask, b, back):
    turn = product(frame_turn(job, b, back), inverse(place(job, mask, job.faces[b].on)[0]))
    return ATTITUDES.index(turn)


class Pose:
    """The boxes of the part on the machine before a stroke, their halves, and the turns of the faces."""

    def __init__(self, job, mask, bends, back, stage):
        lead = bends[0]
        face = job.faces[lead]
        parent = place(job, mask, face.on)
        low, high = span(job, bends)
        d, o = directions(face.side)
        turn = frame_turn(job, lead, back)
        left = low if turn_sign(turn, d) > 0 else high
        end = plus(start(job.faces[face.on], face.side), times(left, d), times(-job.q, o))
        x = stage.x0 + (stage.x1 - stage.x0 - (high - low)) // 2
        frame = (turn, plus((x, 0, -job.tau), times(-1, apply(turn, end))))
        back_turn = inverse(parent[0])
        self.map = after(frame, (back_turn, times(-1, apply(back_turn, parent[1]))))
        self.boxes = {number: image(self.map, box) for number, box in boxes(job, mask).items()}
        child = {f: is_beyond(job, bends, f) for f in range(len(job.faces))}
        self.half = {number: "B" if child[number if number <= 12 else number - 12] == (back == 1) else "F" for number in self.boxes}
        self.turns = [product(self.map[0], place(job, mask, f)[0]) for f in range(len(job.faces))]


def turn_sign(turn, d):
    return apply(turn, d)[0]


# ---- docs/geometry.md: covers and clearance ----
# A rectangle is y0, y1, z0, z1.

def across(box):
    (_, y0, z0), (_, y1, z1) = box
    return y0, y1, z0, z1


def along(box):
    return box[0][0], box[1][0]


def mirrored(r):
    y0, y1, z0, z1 = r
    return -y1, -y0, z0, z1


def seen(half, r):
    return r if half == "B" else mirrored(r)


def widened(job, r):
    y0, y1, z0, z1 = r
    w = abs(job.q - job.t)
    return max(y0 - w, 0) if y0 >= 0 else y0 - w, min(y1 + w, 0) if y1 <= 0 else y1 + w, z0, z1


def piece(r, quarter):
    """The part of a rectangle in a quarter, where it has an interior."""
    y0, y1, z0, z1 = r
    if quarter in (1, 4):
        y0 = max(y0, 0)
    else:
        y1 = min(y1, 0)
    if quarter in (1, 2):
        z0 = max(z0, 0)
    else:
        z1 = min(z1, 0)
    return (y0, y1, z0, z1) if y0 < y1 and z0 < z1 else None


class Cover:
    def __init__(self, r, quarter, sweep):
        y0, y1, z0, z1 = r
        norms = [y * y + z * z for y in (y0, y1) for z in (z0, z1)]
        self.near2, self.far2 = min(norms), max(norms)
        self.lower = {1: (y1, z0), 2: (y1, z1), 3: (y0, z1), 4: (y0, z0)}[quarter]
        y, z = {1: (y0, z1), 2: (y0, z0), 3: (y1, z0), 4: (y1, z1)}[quarter]
        self.upper = (y - z, y + z) if sweep == 45 else (-z, y)

    def has_in_wedge(self, p):
        return cross(self.lower, p) >= 0 and cross(self.upper, p) <= 0


def cross(a, b):
    return a[0] * b[1] - a[1] * b[0]


def special_points(cover, r):
    """The special points of a rectangle, each (y/d, z/d) as (y, z, d)."""
    y0, y1, z0, z1 = r
    found = [(y, z) for y in (y0, y1) for z in (z0, z1)]
    if z0 <= 0 <= z1:
        found += [(y0, 0), (y1, 0)]
    if y0 <= 0 <= y1:
        found += [(0, z0), (0, z1)]
    points = [(y, z, 1) for y, z in found if cover.has_in_wedge((y, z))]
    if y0 <= 0 <= y1 and z0 <= 0 <= z1:
        points.append((0, 0, 1))
    for y, z in (cover.lower, cover.upper):
        points += [(at * abs(y), z * at * sign(y), abs(y)) for at in (y0, y1) if y != 0 and at * y >= 0 and z0 * abs(y) <= z * at * sign(y) <= z1 * abs(y)]
        points += [(y * at * sign(z), at * abs(z), abs(z)) for at in (z0, z1) if z != 0 and at * z >= 0 and y0 * abs(z) <= y * at * sign(z) <= y1 * abs(z)]
    return points


def sign(n):
    return (n > 0) - (n < 0)


def is_clear(cover, r):
    y0, y1, z0, z1 = r
    corners = [(y, z) for y in (y0, y1) for z in (z0, z1)]
    points = special_points(cover, r)
    return (
        all(cross(cover.lower, p) <= 0 for p in corners)
        or all(cross(cover.upper, p) >= 0 for p in corners)
        or all(y * y + z * z >= cover.far2 * d * d for y, z, d in points)
        or all(y * y + z * z <= cover.near2 * d * d for y, z, d in points)
    )


def halves(r):
    """The halves of a piece, where it has some."""
    y0, y1, z0, z1 = r
    if max(y1 - y0, z1 - z0) < 2:
        return None
    if y1 - y0 >= z1 - z0:
        m = (y0 + y1) // 2
        return (y0, m, z0, z1), (m, y1, z0, z1)
    m = (z0 + z1) // 2
    return (y0, y1, z0, m), (y0, y1, m, z1)


def is_free_of(r, quarter, sweep, obstacle, depth):
    """A piece in a quarter is free of a rectangle at a depth."""
    if is_clear(Cover(r, quarter, sweep), obstacle):
        return True
    cut = halves(r) if depth > 0 else None
    return cut is not None and all(is_free_of(half, quarter, sweep, obstacle, depth - 1) for half in cut)


def is_clear_of_nose(cover, nose):
    y, z = cover.lower
    return cover.near2 >= 2 * nose * nose or z < 0 or (y < 0 and -y >= z)


# ---- docs/geometry.md: what stands around ----

def upper_group(job):
    height = job.stages[0].punch_height
    for x0, x1, y0, y1, z0, z1 in job.upper:
        yield (x0, x1), (y0, y1, z0 + height, z1 + height), False
    for stage in job.stages:
        for r in stage.punch_boxes:
            yield (stage.x0, stage.x1), r, False


def lower_group(job, used):
    height = job.stages[0].die_height
    half = used.v // 2
    boxes = [((x0, x1), (y0, y1, z0 - height, z1 - height)) for x0, x1, y0, y1, z0, z1 in job.lower]
    boxes += [((stage.x0, stage.x1), tuple(r)) for stage in job.stages for r in stage.die_boxes]
    for x, (y0, y1, z0, z1) in boxes:
        is_sunk = z1 <= 0 and (y0 >= half or y1 <= -half or z1 <= -half)
        yield x, (y0, y1, z0 - job.t, z1 - job.t + half), is_sunk


# ---- docs/geometry.md: the reasons ----

class Stroke:
    """A stroke of a job, and which reasons hold against it."""

    def __init__(self, job, mask, b, back, stage):
        self.job, self.back, self.stage = job, back, job.stages[stage]
        self.bends = group(job, mask, b)
        self.pose = Pose(job, mask, self.bends, back, self.stage)

    def holds(self, reason):
        kind, *arguments = reason
        return getattr(self, f"holds{kind}")(*arguments)

    def first(self):
        """The first reason that holds and isn't 8, or None."""
        job, numbers = self.job, sorted(self.pose.boxes)
        meetings = [(4, len(list(upper_group(job)))), (5, len(job.stages)), (6, len(list(lower_group(job, self.stage)))), (7, 25)]
        reasons = [(1,), (2, "B"), (2, "F"), *((3, box) for box in numbers)]
        reasons += [(kind, box, quarter, other) for kind, end in meetings for box in numbers for quarter in (1, 2, 3, 4) for other in range(end)]
        reasons.append((9,))
        return next((reason for reason in reasons if self.holds(reason)), None)

    def holds1(self):
        low, high = span(self.job, self.bends)
        return high - low > self.stage.x1 - self.stage.x0 + 2 * self.job.uncovered

    def holds2(self, half):
        side = self.back if half == "B" else 1 - self.back
        return any(reach(self.job, b, side) < self.stage.least for b in self.bends)

    def holds3(self, box):
        return box in self.pose.boxes and any(overlap(*along(self.pose.boxes[box]), *frame) for frame in self.job.frames)

    def moving(self, box, quarter):
        """The piece of a box in a quarter, as its half is looked at."""
        return piece(widened(self.job, seen(self.pose.half[box], across(self.pose.boxes[box]))), quarter)

    def meets(self, box, quarter, obstacles, index):
        if box not in self.pose.boxes or index >= len(obstacles):
            return False
        x, r, is_sunk = obstacles[index]
        moving = self.moving(box, quarter)
        if moving is None or not overlap(*along(self.pose.boxes[box]), *x):
            return False
        if is_sunk and (quarter == 1 or (quarter == 4 and moving[2] >= -self.job.t)):
            return False
        return not is_free_of(moving, quarter, 45, seen(self.pose.half[box], r), self.job.depth)

    def holds4(self, box, quarter, index):
        return self.meets(box, quarter, list(upper_group(self.job)), index)

    def holds5(self, box, quarter, stage):
        other = self.job.stages[stage]
        if box not in self.pose.boxes or not overlap(*along(self.pose.boxes[box]), other.x0, other.x1):
            return False
        moving = self.moving(box, quarter)
        return moving is not None and not is_clear_of_nose(Cover(moving, quarter, 45), other.nose)

    def holds6(self, box, quarter, index):
        return self.meets(box, quarter, list(lower_group(self.job, self.stage)), index)

    def holds7(self, box, quarter, other):
        pose = self.pose
        if pose.half.get(box) != "B" or pose.half.get(other) != "F":
            return False
        moving = self.moving(box, quarter)
        if moving is None or not overlap(*along(pose.boxes[box]), *along(pose.boxes[other])):
            return False
        return not is_free_of(moving, quarter, 90, widened(self.job, across(pose.boxes[other])), self.job.depth)

    def holds8(self):
        faces = range(len(self.job.faces))
        return not any(self.is_legal(left, right) for left in faces for right in faces)

    def holds9(self):
        stage, force = self.stage, self.job.force
        total = sum(high - low for low, high in (line(self.job, b) for b in self.bends))
        return stage.load != 0 and (
            (stage.limit != 0 and stage.load > stage.limit)
            or (force != 0 and stage.load * total > 1000 * force)
        )

    # ---- docs/geometry.md: the gauge ----

    def is_flat(self, face):
        (_, _, low), (_, _, high) = self.pose.boxes[face]
        level = abs(self.pose.turns[face][2][2]) == 1
        return self.pose.half[face] == "B" and level and low == -self.job.t and high == 0

    def is_legal(self, left, right):
        if not (self.is_flat(left) and self.is_flat(right)):
            return False
        near, far, inset, finger, gap, depth, above, below_ = self.job.gauge
        (l, _, _), (m, g, _) = self.pose.boxes[left]
        (l2, _, _), (m2, g2, _) = self.pose.boxes[right]
        a, b = l + inset, m2 - inset - finger
        return (
            g == g2
            and near <= g <= far
            and a + finger <= m
            and l2 <= b
            and b - (a + finger) >= gap
            and self.is_free(((a, g, -self.job.t - below_), (a + finger, g + depth, above)))
            and self.is_free(((b, g, -self.job.t - below_), (b + finger, g + depth, above)))
        )

    def is_free(self, finger):
        return not any(all(overlap(finger[0][i], finger[1][i], box[0][i], box[1][i]) for i in range(3)) for box in self.pose.boxes.values())


# ---- docs/planning.md ----

def action_number(job, bend, back, stage):
    return ((bend - 1) * 2 + back) * len(job.stages) + stage


def action_of(job, number):
    stages = len(job.stages)
    return number // stages // 2 + 1, number // stages % 2, number % stages


def turn_price(job, old, new):
    _, quarter, half, flip, roll, _ = job.cost
    x, _, z = product(ATTITUDES[new], inverse(ATTITUDES[old]))
    if z[2] == 1:
        return {1: 0, -1: half, 0: quarter}[x[0]]
    return flip if z[2] == -1 else roll


def step_cost(job, key, new, stage):
    mask, old, last = key
    return job.cost[0] + turn_price(job, old, new) + (job.cost[5] * abs(stage - last) if mask != 0 else 0)


def next_key(job, key, bend, back, stage):
    mask = key[0] | sum(1 << (b - 1) for b in group(job, key[0], bend))
    return [mask, attitude_of(job, key[0], bend, back), stage]


def meets_at(job, mask, b, stage):
    """Stage meets the group of bend b: neither reason 1 nor reason 2 holds."""
    bends = group(job, mask, b)
    low, high = span(job, bends)
    is_long = high - low <= stage.x1 - stage.x0 + 2 * job.uncovered
    return is_long and all(reach(job, c, side) >= stage.least for c in bends for side in (0, 1))


def bound(job, key):
    mask, _, last = key
    leads = [b for b in job.bends if is_lead(job, mask, b)]
    ways = [0]
    for b in leads:
        ways.append(min((abs(i - last) for i, stage in enumerate(job.stages) if meets_at(job, mask, b, stage)), default=0))
    return job.cost[0] * len(leads) + (job.cost[5] * max(ways) if mask != 0 else 0)


# ---- docs/certificate.md: what a checker does ----

def check(text):
    """The line and the status that `check` gives."""
    try:
        cert = Certificate(text)
        check_steps(cert)
        check_rows(cert)
    except Refused as refused:
        return f"certificate refused {refused}", 5
    return (f"optimal {cert.claim}", 0) if cert.claim < NONE else ("no plan", 1)


def check_steps(cert):
    job, key, cost = cert.job, [0, 0, 0], 0
    for index, (bend, back, stage, left, right) in enumerate(cert.steps):
        if has(key[0], bend):
            raise Refused(f"2 {index} 1")
        if not is_lead(job, key[0], bend):
            raise Refused(f"2 {index} 4")
        stroke = Stroke(job, key[0], bend, back, stage)
        reason = stroke.first()
        if reason is not None:
            raise Refused(f"2 {index} 2 {' '.join(map(str, reason))}")
        if not stroke.is_legal(left, right):
            raise Refused(f"2 {index} 3")
        new = next_key(job, key, bend, back, stage)
        cost += step_cost(job, key, new[1], stage)
        key = new
    if cert.claim < NONE and key[0] != job.full:
        raise Refused("8")
    if cert.claim < NONE and cost != cert.claim:
        raise Refused("3")


def check_rows(cert):
    job, worths = cert.job, {tuple(key): value for key, value, _ in cert.rows}

    def proved(key):
        return max(bound(job, key), worths.get(tuple(key), 0)) if key[0] != job.full else 0

    for row, (key, value, notes) in enumerate(cert.rows):
        for bend in job.bends:
            if not is_lead(job, key[0], bend):
                continue
            for back in (0, 1):
                for stage in range(len(job.stages)):
                    action = action_number(job, bend, back, stage)
                    if action in notes:
                        if not Stroke(job, key[0], bend, back, stage).holds(notes[action]):
                            raise Refused(f"4 {row} {action}")
                        continue
                    new = next_key(job, key, bend, back, stage)
                    if step_cost(job, key, new[1], stage) + proved(new) < value:
                        raise Refused(f"5 {row} {action}")
    if proved([0, 0, 0]) < cert.claim:
        raise Refused("6")
    return proved([0, 0, 0])


# ---- docs/certificate.md: table files; docs/planning.md: tables of settled states ----

class TableRefused(Exception):
    """A table is refused; its words are those behind `table refused`."""


def checked(text, word):
    """A table that is closed, and what is proved of the start key; `word` is its number among the file words."""
    try:
        table = Table(text)
        return table, check_rows(table)
    except Refused as refused:
        number, words = str(refused).split(" ", 1)
        raise TableRefused(f"{word} {({'1': 1, '4': 2, '5': 3})[number]} {words}") from None


def proved_lines(table, at_least):
    claim = "no plan" if at_least == NONE else f"at least {at_least}"
    return f"rows {len(table.rows)}\n{claim}", 1 if at_least == NONE else 0


def prove(text):
    """The lines and the status that `prove` gives."""
    try:
        return proved_lines(*checked(text, 1))
    except TableRefused as refused:
        return f"table refused {refused}", 5


def place_of_reason(reason):
    """The place of a reason in the order of reasons."""
    return "12345679".find(str(reason[0])) if reason[0] != 8 else 8, *(str(word).rjust(2) for word in reason[1:])


def united(first, second):
    """The notes of two rows of one worth; of two reasons for one action the first in the order of reasons stays."""
    return {action: min((notes[action] for notes in (first, second) if action in notes), key=place_of_reason) for action in {*first, *second}}


def merged_rows(first, second):
    rows = {tuple(key): (value, notes) for key, value, notes in first}
    for key, value, notes in second:
        old_value, old_notes = rows.get(tuple(key), (-1, {}))
        if value > old_value:
            rows[tuple(key)] = value, notes
        elif value == old_value:
            rows[tuple(key)] = value, united(old_notes, notes)
    return [(list(key), *rows[key]) for key in sorted(rows)]


def merge(first, second):
    """The lines and the status that `merge` gives, and the text that it stores, or None."""
    try:
        table, _ = checked(first, 1)
        other, _ = checked(second, 2)
        if table.job_lines != other.job_lines:
            raise TableRefused("job")
    except TableRefused as refused:
        return f"table refused {refused}", 5, None
    table.rows = merged_rows(table.rows, other.rows)
    return *proved_lines(table, check_rows(table)), table.text()



def contents(name):
    with open(name, "rb") as file:
        return file.read()


def main():
    words = sys.argv[1:]
    if len(words) == 2 and words[0] == "check":
        answer, status = check(contents(words[1]))
    elif len(words) == 2 and words[0] == "prove":
        answer, status = prove(contents(words[1]))
    elif len(words) == 4 and words[0] == "merge":
        answer, status, stored = merge(contents(words[1]), contents(words[2]))
        if stored is not None:
            with open(words[3], "wb") as file:
                file.write(stored)
    else:
        print(__doc__)
        return 2
    print(answer)
    return status


if __name__ == "__main__":
    sys.exit(main())
