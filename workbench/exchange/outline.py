"""What is cut of a blank: its outline as closed loops, slits between faces that aren't joined, and the bend lines.

All in whole micrometres, by a grid of every coordinate that occurs: each of its cells lies in one face or in none. Cut
is every point of an edge of a face that lies on no bend line. A relief is taken out of the face on which a flange
stands.
"""
from __future__ import annotations

from collections.abc import Iterable
from dataclasses import dataclass

from ..blank import BendLine, Blank
from .endings import Ends

Point = tuple[int, int]
Segment = tuple[Point, Point]
Box = tuple[int, int, int, int]
"""x0, y0, x1, y1."""


@dataclass(frozen=True)
class Cut:
    """What is to be cut, and the bend lines of each bend: one, or none or several where reliefs cut into it."""

    loops: tuple[tuple[Point, ...], ...]
    """Corners of each closed loop; material lies at the left, so that an outer loop runs counterclockwise."""
    slits: tuple[Segment, ...]
    bends: dict[int, tuple[Segment, ...]]


def cut_of(blank: Blank, relief: tuple[int, int] | None = None) -> Cut:
    """The cut of a blank with a relief of (width, depth) at bend ends. Raises Ends where faces overlap."""
    notches = reliefs(blank, *relief) if relief else {}
    grid = _Grid(blank, notches)
    slits, bends, sides = [], {number: [] for number in blank.bends}, []
    for first, second, segment in grid.borders():
        bend = grid.bend_at(segment) if first is not None and second is not None else None
        if bend is not None:
            bends[bend].append(segment)
        elif first is not None and second is not None:
            slits.append(segment)
        else:
            sides.append(segment if first is not None else (segment[1], segment[0]))
    lines = {number: tuple(directed(merged(parts), blank.bends[number])) for number, parts in bends.items()}
    return Cut(tuple(loops_of(sides)), tuple(merged(slits)), lines)


def reliefs(blank: Blank, width: int, depth: int) -> dict[int, list[Box]]:
    """The notches in each face: at both ends of the lines of the bends on it, `width` beyond the line's end along the
    line, and `depth` from the line into the face."""
    found: dict[int, list[Box]] = {}
    for bend in blank.bends.values():
        dx, dy = sign(bend.x1 - bend.x0), sign(bend.y1 - bend.y0)
        for x, y, way in ((bend.x0, bend.y0, -1), (bend.x1, bend.y1, 1)):
            far_x, far_y = x + way * dx * width + dy * depth, y + way * dy * width - dx * depth
            notch = (min(x, far_x), min(y, far_y), max(x, far_x), max(y, far_y))
            for number, face in enumerate(blank.faces):
                if is_parent((face.x0, face.y0, face.x1, face.y1), bend):
                    found.setdefault(number, []).append(notch)
    return found


def is_parent(box: Box, bend: BendLine) -> bool:
    """Whether the flange of a bend stands on this face: the line runs clockwise around it, so it lies at its right."""
    x0, y0, x1, y1 = box
    if bend.is_along_x:
        side = y1 if bend.x1 > bend.x0 else y0
        return bend.y0 == side and x0 <= min(bend.x0, bend.x1) and max(bend.x0, bend.x1) <= x1
    side = x1 if bend.y1 < bend.y0 else x0
    return bend.x0 == side and y0 <= min(bend.y0, bend.y1) and max(bend.y0, bend.y1) <= y1


class _Grid:
    """The cells between all coordinates, and the face in which each lies."""

    def __init__(self, blank: Blank, notches: dict[int, list[Box]]) -> None:
        boxes = [(face.x0, face.y0, face.x1, face.y1) for face in blank.faces]
        every = boxes + [notch for some in notches.values() for notch in some]
        every += [(bend.x0, bend.y0, bend.x1, bend.y1) for bend in blank.bends.values()]
        self.xs = sorted({x for box in every for x in box[::2]})
        self.ys = sorted({y for box in every for y in box[1::2]})
        self.bends = blank.bends
        self.face: dict[Point, int] = {}
        for number, box in enumerate(boxes):
            for cell in self.cells(box):
                if any(cell in self.cells(notch) for notch in notches.get(number, [])):
                    continue
                if cell in self.face:
                    names = blank.faces[self.face[cell]].name, blank.faces[number].name
                    raise Ends(f"faces '{names[0]}' and '{names[1]}' lie in one another: no blank of the program")
                self.face[cell] = number

    def cells(self, box: Box) -> set[Point]:
        """The cells of a box, by the numbers of their lower left corners."""
        columns = range(self.xs.index(box[0]), self.xs.index(box[2]))
        rows = range(self.ys.index(box[1]), self.ys.index(box[3]))
        return {(i, j) for i in columns for j in rows}

    def borders(self) -> Iterable[tuple[int | None, int | None, Segment]]:
        """Each piece between two cells that aren't of one face: the face at the left of the piece's direction, the one
        at its right, and the piece; one of the two may be no face."""
        for i in range(len(self.xs)):
            for j in range(len(self.ys)):
                here = self.face.get((i, j))
                below, left = self.face.get((i, j - 1)), self.face.get((i - 1, j))
                if here != below:
                    yield here, below, ((self.xs[i], self.ys[j]), (self.xs[i + 1], self.ys[j]))
                if here != left:
                    yield left, here, ((self.xs[i], self.ys[j]), (self.xs[i], self.ys[j + 1]))

    def bend_at(self, segment: Segment) -> int | None:
        """The bend whose line holds this piece, if any."""
        (x0, y0), (x1, y1) = segment
        for bend in self.bends.values():
            across = bend.y0 == y0 == y1 == bend.y1 or bend.x0 == x0 == x1 == bend.x1
            if across and min(bend.x0, bend.x1) <= x0 and x1 <= max(bend.x0, bend.x1) \
                    and min(bend.y0, bend.y1) <= y0 and y1 <= max(bend.y0, bend.y1):
                return bend.number
        return None


def sign(number: int) -> int:
    """-1, 0 or 1."""
    return (number > 0) - (number < 0)


def merged(segments: list[Segment]) -> list[Segment]:
    """Upward pieces joined where one ends as another begins, in one line."""
    joined: list[Segment] = []
    for segment in sorted(segments, key=lambda piece: (piece[0][1] == piece[1][1], across(piece), piece)):
        last = joined[-1] if joined else None
        if last and last[1] == segment[0] and (last[0][1] == last[1][1]) == (segment[0][1] == segment[1][1]):
            joined[-1] = (last[0], segment[1])
        else:
            joined.append(segment)
    return joined


def across(segment: Segment) -> int:
    """The coordinate that both ends of a piece share."""
    return segment[0][1] if segment[0][1] == segment[1][1] else segment[0][0]


def directed(segments: list[Segment], bend: BendLine) -> list[Segment]:
    """The pieces of a bend line, in its own direction."""
    if (bend.x1, bend.y1) > (bend.x0, bend.y0):
        return segments
    return [(end, start) for start, end in reversed(segments)]


def loops_of(sides: list[Segment]) -> list[tuple[Point, ...]]:
    """Closed loops of directed pieces, each as its corners. Where four pieces meet in a point the walk turns left, so
    that material isn't joined by a point alone."""
    starts: dict[Point, list[Point]] = {}
    for start, end in sides:
        starts.setdefault(start, []).append(end)
    loops = []
    while starts:
        first = min(starts, key=lambda point: (point[1], point[0]))
        loop, here, way = [first], first, (0, 0)
        while True:
            after = max(starts[here], key=lambda point: turn(way, here, point))
            starts[here].remove(after)
            if not starts[here]:
                del starts[here]
            way, here = (sign(after[0] - here[0]), sign(after[1] - here[1])), after
            if here == first:
                break
            loop.append(here)
        loops.append(corners(loop))
    return loops


def turn(way: Point, here: Point, after: Point) -> int:
    """Positive where a walk that came along `way` turns left towards `after`."""
    return way[0] * (after[1] - here[1]) - way[1] * (after[0] - here[0])


def corners(loop: list[Point]) -> tuple[Point, ...]:
    """The points of a loop at which it turns."""
    pairs = zip(loop[-1:] + loop[:-1], loop, loop[1:] + loop[:1])
    return tuple(here for before, here, after in pairs
                 if turn((here[0] - before[0], here[1] - before[1]), here, after) != 0)


def twice_area(loop: tuple[Point, ...]) -> int:
    """Twice the area within a loop, negative for a hole."""
    return sum(a[0] * b[1] - a[1] * b[0] for a, b in zip(loop, loop[1:] + loop[:1]))
