"""A plate in its own frame: its outside sizes to the mould lines, and whether its outline is a rectangle. Lengths in mm."""
from __future__ import annotations

from dataclasses import dataclass, field

from .body_faces import FLAT, TOLERANCE, BodyFace, Edge, axis_point
from .endings import Ends
from .sheet_body import Bend, Plate, Sheet
from .vectors import Vector, cross, dot, minus, scaled, size, unit

OPPOSITE = {"N": "S", "S": "N", "E": "W", "W": "E"}
RELIEF = 3.0
"""A relief may reach so far from the end of a bend, beyond twice the outer radius."""
Spot = tuple[float, float]


@dataclass
class Framed:
    """A plate with axes; `outer` holds the place of each side along its outward direction, and `bends` those on it."""

    plate: Plate
    x: Vector
    y: Vector
    z: Vector
    own: Bend | None = None
    outer: dict[str, float] = field(default_factory=dict)
    bends: dict[str, list[Bend]] = field(default_factory=dict)
    notes: list[str] = field(default_factory=list)

    def outward(self, side: str) -> Vector:
        """The direction out of a side."""
        return {"N": self.y, "E": self.x, "S": scaled(self.y, -1), "W": scaled(self.x, -1)}[side]

    def along(self, side: str) -> Vector:
        """The direction along a side, clockwise seen from above."""
        return {"N": self.x, "E": scaled(self.y, -1), "S": scaled(self.x, -1), "W": self.y}[side]

    @property
    def width(self) -> float:
        """The outside size along x."""
        return self.outer["E"] + self.outer["W"]

    @property
    def length(self) -> float:
        """The outside size along y."""
        return self.outer["N"] + self.outer["S"]

    def start(self, side: str) -> float:
        """Where a side begins, along its direction."""
        return -self.outer[{"N": "W", "E": "N", "S": "E", "W": "S"}[side]]

    def spot(self, point: Vector) -> Spot:
        """A point in x and y."""
        return dot(point, self.x), dot(point, self.y)

    @property
    def place(self) -> str:
        """One of its faces, for a sentence."""
        return min(self.plate.skins, key=lambda skin: skin.number).place


def frame_plate(plate: Plate, axes: tuple[Vector, Vector, Vector], own: Bend | None, sheet: Sheet, fill: bool) -> Framed:
    """A plate in these axes, with its sizes. Raises Ends where it is no rectangle with bends at its sides."""
    framed = Framed(plate, *axes, own)
    big = sheet.radius + sheet.thickness
    heights = [dot(skin.at, framed.z) for skin in plate.skins]
    if abs(max(heights) - min(heights) - sheet.thickness) > TOLERANCE:
        raise Ends(f"the two skins of the plate with {framed.place} aren't {sheet.thickness:.3f} mm apart")
    for side in "NESW":
        outward = framed.outward(side)
        framed.bends[side] = [bend for bend in plate.bends if dot(bend.inward(bend.other(plate)), outward) < FLAT - 1]
        reach = max(dot(point, outward) for point in plate.points)
        framed.outer[side] = reach
        if framed.bends[side]:
            framed.outer[side] = mould_line(framed, side, reach, big)
    if sum(map(len, framed.bends.values())) != len(plate.bends):
        raise Ends(f"a bend of the plate with {framed.place} isn't parallel to a side of it")
    keep_rectangle(framed, big, fill)
    return framed


def mould_line(framed: Framed, side: str, reach: float, big: float) -> float:
    """The place of a bent side. Raises Ends where its bends don't lie in one line or the plate reaches beyond it."""
    bends, outward = framed.bends[side], framed.outward(side)
    lines = [dot(axis_point(bend.inner), outward) + big for bend in bends]
    place = bends[0].inner.place
    if max(lines) - min(lines) > TOLERANCE:
        raise Ends(f"two bends on one side of a plate lie {max(lines) - min(lines):.3f} mm apart, of {place}")
    over = reach - lines[0]
    if over > TOLERANCE:
        raise Ends(f"beside the bend of {place} the plate reaches {over:.3f} mm over the mould line: a flange within "
                   "a notch isn't known")
    if over > TOLERANCE - big:
        framed.notes.append(f"beside the bend of {place} the body's edge stands {-over:.3f} mm inside the mould line, "
                            "in the blank q")
    return lines[0]


def bend_ends(framed: Framed, big: float) -> list[Spot]:
    """The ends of the plate's bends, where its flat part begins."""
    ends = []
    for side, bends in framed.bends.items():
        for bend in bends:
            along = framed.x if side in "NS" else framed.y
            spans = [dot(point, along) for cylinder in bend.cylinders for point in cylinder.points]
            line = (framed.outer[side] - big) * (1 if side in "NE" else -1)
            ends += [(at, line) if side in "NS" else (line, at) for at in (min(spans), max(spans))]
            if bend is framed.own:
                keep_whole_bend(framed, bend, (min(spans), max(spans)), big)
    return ends


def keep_whole_bend(framed: Framed, bend: Bend, span: Spot, big: float) -> None:
    """Refuses a bend that is shorter than its flange by more than reliefs. Raises Ends."""
    low, high = -framed.outer["W"], framed.outer["E"]
    most = 2 * big + RELIEF + (big if framed.bends["W"] or framed.bends["E"] else 0)
    if max(span[0] - low, high - span[1]) > most:
        raise Ends(f"the bend of {bend.inner.place} is shorter than its flange: {span[1] - span[0]:.3f} of "
                   f"{high - low:.3f} mm")


def keep_rectangle(framed: Framed, big: float, fill: bool) -> None:
    """Refuses holes, and corners within the rectangle that are no reliefs, unless they are to be filled. Raises Ends."""
    ends, reach = bend_ends(framed, big), 2 * big + RELIEF
    inner = {side: framed.outer[side] - (big if framed.bends[side] else 0) for side in "NESW"}
    heights = {skin: dot(skin.at, framed.z) for skin in framed.plate.skins}
    for height in (min(heights.values()), max(heights.values())):
        skins = [skin for skin in framed.plate.skins if abs(heights[skin] - height) <= TOLERANCE]
        outline, *holes = loops_of(skins, framed)
        for hole in holes:
            told(framed, fill, f"a hole of {len(hole)} edges", hole[0].start, "holes")
        for edge in outline:
            keep_edge(framed, edge, inner, ends, reach, fill)


def keep_edge(framed: Framed, edge: Edge, inner: dict[str, float], ends: list[Spot], reach: float, fill: bool) -> None:
    """Refuses an edge of the outline that isn't a side of the rectangle nor beside a bend. Raises Ends."""
    spots = [framed.spot(point) for point in (edge.start, edge.end)]
    is_relief = [any(abs(u - x) <= reach and abs(v - y) <= reach for x, y in ends) for u, v in spots]
    for (u, v), near in zip(spots, is_relief):
        depth = {"N": inner["N"] - v, "E": inner["E"] - u, "S": inner["S"] + v, "W": inner["W"] + u}
        is_beyond = any(depth[side] < -TOLERANCE and framed.bends[side] for side in depth)
        is_at_side = any(abs(depth[side]) <= TOLERANCE for side in depth)
        if not (is_at_side or is_beyond or near):
            told(framed, fill, "a corner within its rectangle", edge.start, "only rectangles")
            return
    if all(is_relief):
        return
    if not edge.is_line:
        told(framed, fill, "a curved edge", edge.middle, "only rectangles")
    else:
        way = unit(minus(edge.end, edge.start))
        if size(cross(way, framed.x)) > FLAT and size(cross(way, framed.y)) > FLAT:
            told(framed, fill, "an oblique edge", edge.middle, "only rectangles")


def told(framed: Framed, fill: bool, what: str, at: Vector, known: str) -> None:
    """Notes what is filled, or refuses it. Raises Ends."""
    x, y, z = (f"{number + 0.0:.3f}" for number in at)
    if not fill:
        not_known = "holes aren't planned" if known == "holes" else f"{known} are known"
        raise Ends(f"the plate with {framed.place} has {what} at {x}, {y}, {z} mm: {not_known} "
                   "(--fill takes it as of material)")
    framed.notes.append(f"filled: {what} at {x}, {y}, {z} mm")


def loops_of(skins: list[BodyFace], framed: Framed) -> list[list[Edge]]:
    """The loops of edges around these skins of one plane, the largest first; edges between two of them are none."""
    numbers = [edge.number for skin in skins for edge in skin.edges]
    edges = [edge for skin in skins for edge in skin.edges if numbers.count(edge.number) == 1]
    loops: list[list[Edge]] = []
    while edges:
        loop = [edges.pop()]
        points = [loop[0].start, loop[0].end]
        while True:
            touching = next((edge for edge in edges if any(size(minus(end, point)) <= TOLERANCE for point in points
                                                           for end in (edge.start, edge.end))), None)
            if touching is None:
                break
            edges.remove(touching)
            loop.append(touching)
            points += [touching.start, touching.end]
        loops.append(loop)

    def extent(loop: list[Edge]) -> float:
        xs = [framed.spot(point)[0] for edge in loop for point in (edge.start, edge.middle, edge.end)]
        return max(xs) - min(xs)

    return sorted(loops, key=extent, reverse=True)
