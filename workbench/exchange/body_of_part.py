"""The folded body of a part with true radii, as boxes and quarter rings. Lengths in whole micrometres.

A face is flat up to `radius + thickness` inside a bent side; the bend is a quarter ring. Where a flange is narrower than
its side, the edge beside it stands q inside the mould line, as the program has it.
"""
from __future__ import annotations

from dataclasses import dataclass

from .part_file import UP, Face, Part

Whole = tuple[int, int, int]
DIRECTION = {"N": (1, 0, 0), "E": (0, -1, 0), "S": (-1, 0, 0), "W": (0, 1, 0)}
OUTWARD = {"N": (0, 1, 0), "E": (1, 0, 0), "S": (0, -1, 0), "W": (-1, 0, 0)}
ENDS = {"N": ("W", "E"), "E": ("N", "S"), "S": ("E", "W"), "W": ("S", "N")}
"""The sides at the start and at the end of a side, which runs clockwise."""


@dataclass(frozen=True)
class Frame:
    """A face's place: its origin, and its axes; z points to its upper side, 0 in the middle of the sheet."""

    origin: Whole = (0, 0, 0)
    x: Whole = (1, 0, 0)
    y: Whole = (0, 1, 0)
    z: Whole = (0, 0, 1)

    def point(self, at: Whole) -> Whole:
        """A point of the face in the body."""
        return added(self.origin, self.direction(at))

    def direction(self, way: Whole) -> Whole:
        """A direction of the face in the body."""
        return added(added(times(self.x, way[0]), times(self.y, way[1])), times(self.z, way[2]))


@dataclass(frozen=True)
class Ring:
    """A quarter of a tube: from `start` along `axis` over `length`; it sweeps from direction `first` to `last`."""

    start: Whole
    axis: Whole
    first: Whole
    last: Whole
    length: int
    inner: int
    outer: int


@dataclass(frozen=True)
class Body:
    """What the body is joined of: boxes by two opposite corners, and rings."""

    boxes: tuple[tuple[Whole, Whole], ...]
    rings: tuple[Ring, ...]


def added(a: Whole, b: Whole) -> Whole:
    """a + b."""
    return a[0] + b[0], a[1] + b[1], a[2] + b[2]


def times(a: Whole, n: int) -> Whole:
    """n * a."""
    return a[0] * n, a[1] * n, a[2] * n


def start_of(face: Face, side: str) -> Whole:
    """Where a side begins, clockwise."""
    return {"N": (0, face.length, 0), "E": (face.width, face.length, 0), "S": (face.width, 0, 0), "W": (0, 0, 0)}[side]


def length_of(face: Face, side: str) -> int:
    """How long a side is."""
    return face.width if side in "NS" else face.length


class _Builder:
    """Walks over the faces of a part, each in its frame."""

    def __init__(self, part: Part, reach: int, gap: int) -> None:
        self.part, self.reach, self.gap = part, reach, gap
        self.half, self.big = part.thickness // 2, part.radius + part.thickness
        self.frames: dict[str, Frame] = {}
        self.faces = {face.name: face for face in part.faces}
        self.boxes: list[tuple[Whole, Whole]] = []
        self.rings: list[Ring] = []

    def children(self, face: Face, side: str) -> list[Face]:
        """The flanges on a side, in the order in which they stand."""
        return sorted((child for child in self.part.faces if child.on == face.name and child.side == side),
                      key=lambda child: child.at)

    def loss(self, face: Face, side: str) -> int:
        """What the flat part of a face loses at a side: nothing where it isn't bent."""
        is_bent = (bool(face.on) and side == "S") or bool(self.children(face, side))
        return self.big if is_bent else 0

    def run(self) -> Body:
        """The body."""
        for face in self.part.faces:
            frame = self.frames[face.name] = self.frame_of(face)
            corner = (self.loss(face, "W"), self.loss(face, "S"), -self.half)
            other = (face.width - self.loss(face, "E"), face.length - self.loss(face, "N"), self.half)
            self.box(frame, corner, other)
            for side in "NEW" if face.on else "NESW":
                self.add_side(face, frame, side)
        return Body(tuple(self.boxes), tuple(self.rings))

    def frame_of(self, face: Face) -> Frame:
        """The frame of a face, from that of the face on which it stands."""
        if not face.on:
            return Frame()
        parent, frame, way = self.faces[face.on], self.frames[face.on], 1 if face.dir == UP else -1
        along, out, up = DIRECTION[face.side], OUTWARD[face.side], (0, 0, way)
        origin = added(start_of(parent, face.side), times(along, face.at))
        origin = added(added(origin, times(out, -self.half)), times(up, -self.half))
        return Frame(frame.point(origin), frame.direction(along), frame.direction(up),
                     frame.direction(times(out, -way)))

    def box(self, frame: Frame, corner: Whole, other: Whole) -> None:
        """A box of a face, unless it has no inside."""
        if all(low < high for low, high in zip(corner, other)):
            first, second = frame.point(corner), frame.point(other)
            low = min(first[0], second[0]), min(first[1], second[1]), min(first[2], second[2])
            high = max(first[0], second[0]), max(first[1], second[1]), max(first[2], second[2])
            self.boxes.append((low, high))

    def add_side(self, face: Face, frame: Frame, side: str) -> None:
        """The bends on a side, and the strips of the face between them."""
        flanges = self.children(face, side)
        if not flanges:
            return
        low, high = self.loss(face, ENDS[side][0]), length_of(face, side) - self.loss(face, ENDS[side][1])
        at = low
        for flange in flanges:
            first = max(flange.at + self.loss(flange, "W"), low)
            last = min(flange.at + flange.width - self.loss(flange, "E"), high)
            self.add_ring(frame, start_of(face, side), flange, first, last)
            self.add_strip(face, frame, side, at, flange.at + self.loss(flange, "W") - self.gap)
            at = flange.at + flange.width - self.loss(flange, "E") + self.gap
        self.add_strip(face, frame, side, at, high)

    def add_ring(self, frame: Frame, start: Whole, flange: Face, first: int, last: int) -> None:
        """The bend of a flange over a range of its side."""
        along, out, way = DIRECTION[flange.side], OUTWARD[flange.side], 1 if flange.dir == UP else -1
        middle = added(added(start, times(along, first)), times(out, -self.big))
        middle = added(middle, (0, 0, way * (self.half + self.part.radius)))
        self.rings.append(Ring(frame.point(middle), frame.direction(along), frame.direction((0, 0, -way)),
                               frame.direction(out), last - first, self.part.radius, self.big))

    def add_strip(self, face: Face, frame: Frame, side: str, first: int, last: int) -> None:
        """What a face keeps beside a flange, over a range of the side."""
        if first >= last:
            return
        start, along, out = start_of(face, side), DIRECTION[side], OUTWARD[side]
        near = added(added(start, times(along, first)), times(out, -self.big))
        far = added(added(start, times(along, last)), times(out, self.reach - self.big))
        low, high = (min(near[0], far[0]), min(near[1], far[1])), (max(near[0], far[0]), max(near[1], far[1]))
        self.box(frame, (*low, -self.half), (*high, self.half))


def body_of(part: Part, q: int) -> Body:
    """The folded body of a part that the program has accepted, with its half deduction q."""
    return _Builder(part, max(part.radius + part.thickness - q, 0), 0).run()


def flush_body_of(part: Part, gap: int) -> Body:
    """The same as CAD programs draw it: the edge beside a narrow flange in the mould line, `gap` away from the flange."""
    return _Builder(part, part.radius + part.thickness, gap).run()
