"""Where the faces lie before a stroke, for pictures. The verdicts are the program's, never this module's.

A picture is right to |q - t|, since a bend is drawn as a hinge at its inner line. A job is read from the head of a
certificate, and its blank from what the program prints. Lengths in micrometres; x along the bed, y to the back, z up.
"""
from __future__ import annotations

from dataclasses import dataclass, field
from typing import NamedTuple

from workbench.blank import Blank, read_blank

Vector = tuple[int, int, int]
Turn = tuple[Vector, Vector, Vector]
UNIT: Turn = ((1, 0, 0), (0, 1, 0), (0, 0, 1))
COSTS = ("stroke", "quarter", "half", "flip", "roll", "stage")


class Map(NamedTuple):
    """A turn by right angles, and a shift behind it."""

    turn: Turn
    shift: Vector

    def of(self, point: Vector) -> Vector:
        """Where a point comes to lie."""
        turned = self.along(point)
        return turned[0] + self.shift[0], turned[1] + self.shift[1], turned[2] + self.shift[2]

    def along(self, way: Vector) -> Vector:
        """Which way a direction comes to point."""
        first, second, third = (sum(a * b for a, b in zip(row, way)) for row in self.turn)
        return first, second, third

    def after(self, other: Map) -> Map:
        """The map that does the other one first."""
        columns = [self.along((other.turn[0][i], other.turn[1][i], other.turn[2][i])) for i in range(3)]
        first, second, third = ((columns[0][i], columns[1][i], columns[2][i]) for i in range(3))
        return Map((first, second, third), self.of(other.shift))

    def inverse(self) -> Map:
        """The map that takes it back."""
        first, second, third = ((self.turn[0][i], self.turn[1][i], self.turn[2][i]) for i in range(3))
        back = Map((first, second, third), (0, 0, 0))
        x, y, z = back.along(self.shift)
        return Map(back.turn, (-x, -y, -z))


FLAT = Map(UNIT, (0, 0, 0))


@dataclass
class Face:
    """A face of a job: its name, its parent's number, its side of it, and whether it bends up."""

    name: str
    on: int
    side: str
    is_up: bool


@dataclass
class Tool:
    """A punch (its numbers: height, nose) or a die (height, opening, least flange) of a stage."""

    name: str
    numbers: list[int]
    boxes: list[list[int]] = field(default_factory=list)


@dataclass
class Stage:
    """A stage of the bed, from x0 to x1."""

    x0: int
    x1: int
    punch: Tool = field(default_factory=lambda: Tool("?", [0, 0]))
    die: Tool = field(default_factory=lambda: Tool("?", [0, 0, 0]))
    pieces: list[int] = field(default_factory=list)


class PartBox(NamedTuple):
    """A face's box before a stroke, and in which half of the part it is: F (front) or B (back)."""

    face: int
    half: str
    x0: int
    x1: int
    y0: int
    y1: int
    z0: int
    z1: int


class ToolBox(NamedTuple):
    """A box that stands around: upper or lower, its number as reasons have it, its place, and of which tool it is."""

    group: str
    number: int
    x0: int
    x1: int
    y0: int
    y1: int
    z0: int
    z1: int
    name: str


@dataclass
class Pose:
    """How the part lies before a stroke."""

    attitude: Turn
    boxes: list[PartBox]


def numbers_in(words: list[str]) -> list[int]:
    """The whole numbers among some words."""
    return [int(word) for word in words if word.lstrip("-").isdigit()]


class Job:
    """A job: the head of its certificate and its blank."""

    def __init__(self, head: str, blank: str) -> None:
        self.lines: list[str] = []
        self.thickness = self.half_deduction = self.gang = 0
        self.faces: list[Face] = []
        self.stages: list[Stage] = []
        self.beams: dict[str, list[list[int]]] = {"upper": [], "lower": []}
        self.frames: list[list[int]] = []
        self.bed: list[int] = []
        self.gauge: list[int] = []
        self.cost: dict[str, int] = {}
        self.open: Tool | None = None
        for line in head.split("\n"):
            if line.startswith("claim "):
                break
            self.lines.append(line)
            self.read(line.split(" "))
        self.blank: Blank = read_blank(blank)

    def read(self, words: list[str]) -> None:
        """Reads a line of the certificate's job."""
        kind, numbers = words[0], numbers_in(words[1:])
        if kind == "part":
            self.thickness, self.half_deduction = int(words[2]), int(words[4])
        elif kind == "face":
            self.read_face(words)
        elif kind in self.beams:
            self.beams[kind].append(numbers)
        elif kind == "frame":
            self.frames.append(numbers)
        elif kind == "cost":
            self.cost = dict(zip(COSTS, numbers))
        elif kind in ("bed", "gauge"):
            setattr(self, kind, numbers)
        elif kind == "gang":
            self.gang = numbers[0]
        else:
            self.read_stage(kind, words, numbers)

    def read_face(self, words: list[str]) -> None:
        """Reads a line `face ..`."""
        if self.faces:
            self.faces.append(Face(words[1], int(words[2]), words[3], words[7] == "up"))
        else:
            self.faces.append(Face(words[1], -1, "", True))

    def read_stage(self, kind: str, words: list[str], numbers: list[int]) -> None:
        """Reads a line of a stage."""
        if kind == "stage":
            self.stages.append(Stage(numbers[0], numbers[1]))
        elif kind in ("punch", "die"):
            self.open = Tool(words[1], [int(word) for word in words[2:]])
            setattr(self.stages[-1], kind, self.open)
        elif kind == "box" and self.open is not None:
            self.open.boxes.append(numbers)
        elif kind == "pieces":
            self.stages[-1].pieces = numbers

    def group(self, folded: set[int], bend: int) -> list[int]:
        """The bends of one stroke, the lead first: with gangs all of one side and way that aren't folded."""
        if not self.gang:
            return [bend]
        own = self.faces[bend]
        kind = own.on, own.side, own.is_up
        return [number for number, face in enumerate(self.faces)
                if number and number not in folded and (face.on, face.side, face.is_up) == kind]

    def line(self, bend: int) -> tuple[Vector, Vector, Vector]:
        """A bend's line: its start, the direction along it, and the direction away from the parent."""
        line = self.blank.bends[bend]
        along = ((line.x1 > line.x0) - (line.x1 < line.x0), (line.y1 > line.y0) - (line.y1 < line.y0), 0)
        return (line.x0, line.y0, 0), along, (-along[1], along[0], 0)

    def maps(self, folded: set[int]) -> list[Map]:
        """Each face's map from the flat sheet, its seen side up at z = 0, with these bends folded."""
        found = [FLAT]
        for number, face in enumerate(self.faces[1:], 1):
            above = found[face.on]
            found.append(above.after(self.hinge(number)) if number in folded else above)
        return found

    def hinge(self, bend: int) -> Map:
        """The quarter turn of a bend about its inner line."""
        start, along, away = self.line(bend)
        sign = 1 if self.faces[bend].is_up else -1
        rows = []
        for axis, up in enumerate((0, 0, 1)):  # `along` stays, `away` comes to point up or down, up against it
            x, y = (along[axis] * along[k] + sign * up * away[k] for k in (0, 1))
            rows.append((x, y, -sign * away[axis]))
        turn = Map((rows[0], rows[1], rows[2]), (0, 0, 0))
        pivot = (start[0], start[1], 0 if sign == 1 else -self.thickness)
        x, y, z = turn.of(pivot)
        return Map(turn.turn, (pivot[0] - x, pivot[1] - y, pivot[2] - z))

    def beyond(self, group: list[int]) -> set[int]:
        """The faces that a stroke's bends carry."""
        found = set(group)
        for number, face in enumerate(self.faces):
            if face.on in found:
                found.add(number)
        return found

    def pose(self, folded: set[int], group: list[int], back: str, stage: int) -> Pose:
        """How the part lies before a stroke: `back` is P (the parent at the back) or C (the child)."""
        lead, maps = group[0], self.maps(folded)
        start, along, away = self.line(lead)
        up, side = (1 if self.faces[lead].is_up else -1), (1 if back == "C" else -1)
        way = up * side  # `along` comes to point along way * x, `away` along side * y
        turn: Turn = (scaled(along, way), scaled(away, side), (0, 0, up))
        low, high = self.span(group, start, along)
        x0, x1 = self.stages[stage].x0, self.stages[stage].x1
        begin = x0 + (x1 - x0 - (high - low)) // 2
        at = Map(turn, (0, 0, 0)).of(start)
        shift = (begin - at[0] - (low if way == 1 else -high), -at[1], -at[2] if up == 1 else -at[2] - self.thickness)
        whole = Map(turn, shift).after(maps[self.faces[lead].on].inverse())
        beyond = self.beyond(group)
        halves = ["B" if (number in beyond) == (back == "C") else "F" for number in range(len(maps))]
        boxes = [PartBox(number, halves[number], *self.box(number, whole.after(own)))
                 for number, own in enumerate(maps)]
        return Pose(whole.turn, boxes)

    def span(self, group: list[int], start: Vector, along: Vector) -> tuple[int, int]:
        """From where to where a stroke's bends reach along the lead's line, from its start."""
        ends: list[int] = []
        for bend in group:
            line = self.blank.bends[bend]
            for x, y in ((line.x0, line.y0), (line.x1, line.y1)):
                ends.append((x - start[0]) * along[0] + (y - start[1]) * along[1])
        return min(ends), max(ends)

    def box(self, face: int, place: Map) -> list[int]:
        """The box of a face under a map: x0, x1, y0, y1, z0, z1."""
        core = self.blank.faces[face]
        corners = place.of((core.x0, core.y0, -self.thickness)), place.of((core.x1, core.y1, 0))
        return [end for pair in zip(*corners) for end in (min(pair), max(pair))]

    def around(self) -> list[ToolBox]:
        """The boxes that stand around, numbered as reasons number them."""
        found = []
        first = self.stages[0]
        for group, lift, drop in (("upper", first.punch.numbers[0], 0),
                                  ("lower", -first.die.numbers[0] - self.thickness, -self.thickness)):
            rows = [([*box[:4], box[4] + lift, box[5] + lift], "beam") for box in self.beams[group]]
            for stage in self.stages:
                tool = stage.punch if group == "upper" else stage.die
                rows += [([stage.x0, stage.x1, y0, y1, z0 + drop, z1 + drop], tool.name)
                         for y0, y1, z0, z1 in tool.boxes]
            found += [ToolBox(group, number, *box, name=name) for number, (box, name) in enumerate(rows)]
        return found


def scaled(vector: Vector, by: int) -> Vector:
    """A direction, or the one against it."""
    return vector[0] * by, vector[1] * by, vector[2] * by


def turn_between(new: Turn, old: Turn) -> str:
    """How the part is turned between two attitudes, by the words of the setup sheet."""
    turn = Map(new, (0, 0, 0)).after(Map(old, (0, 0, 0)).inverse()).turn
    if turn[2][2] == -1:
        return "flip"
    if turn[2][2] != 1:
        return "roll"
    return {1: "none", -1: "half"}.get(turn[0][0], "quarter")
