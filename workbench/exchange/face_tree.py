"""The tree of faces of a recognised sheet, with names and with sizes on whole micrometres."""
from __future__ import annotations

from dataclasses import dataclass, field

from .body_faces import TOLERANCE
from .endings import Ends
from .part_file import DOWN, GREATEST_RADIUS, GREATEST_THICKNESS, UP, Face, Part
from .plate_frame import Framed, frame_plate
from .sheet_body import Bend, Plate, Sheet
from .vectors import Vector, cross, dot, scaled

NAMES = {"N": "north", "E": "east", "S": "south", "W": "west"}


@dataclass
class Tree:
    """The faces in the part's order, and what is said beside."""

    part: Part
    notes: list[str]


@dataclass
class _Node:
    framed: Framed
    code: str = ""
    on: "_Node | None" = None
    side: str = ""
    at: float = 0.0
    dir: str = ""

    @property
    def name(self) -> str:
        """`base`, `north` and so on for what stands on it, and then the sides on the way."""
        if self.on is None:
            return "base"
        return NAMES[self.side] + self.code[1:] if self.on.on is None else self.code


@dataclass
class _Rounding:
    """Millimetres on whole micrometres, and the most that one was moved."""

    most: float = 0.0
    notes: list[str] = field(default_factory=list)

    def whole(self, length: float) -> int:
        """The nearest whole number of micrometres."""
        number = round(1000 * length)
        self.most = max(self.most, abs(1000 * length - number))
        return number


def make_tree(sheet: Sheet, material: str, root: int | None, fill: bool) -> Tree:
    """The part of a sheet, rooted at its largest plate that can be the root, or at the `root`-th largest. Raises Ends."""
    plates = sorted(sheet.plates, key=lambda plate: -area_of(plate))
    if root is not None and root >= len(plates):
        raise Ends(f"--root {root}: the part has the plates 0 to {len(plates) - 1}, the largest first")
    for plate in plates if root is None else [plates[root]]:
        nodes = walk(plate, sheet, fill)
        if all(stands_within(node) for node in nodes):
            return written(nodes, sheet, material)
    raise Ends("a flange reaches past the side on which it stands" if root is not None else
               "no plate can be the root: with each choice a flange reaches past the side on which it stands")


def area_of(plate: Plate) -> float:
    """The area of the rectangle around a plate along its first bend."""
    x = plate.bends[0].inner.axis
    y = cross(next(iter(plate.skins)).normal, x)
    spans = [[dot(point, axis) for point in plate.points] for axis in (x, y)]
    return (max(spans[0]) - min(spans[0])) * (max(spans[1]) - min(spans[1]))


def root_axes(plate: Plate) -> tuple[Vector, Vector, Vector]:
    """The root's axes: z to the side to which most of its bends go, x along its longer side."""
    normal = next(iter(plate.skins)).normal
    ups = sum(1 if dot(bend.inward(plate), normal) > 0 else -1 for bend in plate.bends)
    z = normal if ups >= 0 else scaled(normal, -1)
    x = plate.bends[0].inner.axis
    y = cross(z, x)
    spans = [[dot(point, axis) for point in plate.points] for axis in (x, y)]
    if max(spans[0]) - min(spans[0]) < max(spans[1]) - min(spans[1]) - TOLERANCE:
        x, y = y, scaled(x, -1)
    return x, y, z


def walk(plate: Plate, sheet: Sheet, fill: bool) -> list[_Node]:
    """The nodes from the root on, each behind that on which it stands. Raises Ends."""
    nodes = [_Node(frame_plate(plate, root_axes(plate), None, sheet, fill))]
    seen = {plate}
    for node in nodes:
        for side in "NESW":
            bends = [bend for bend in node.framed.bends[side] if bend is not node.framed.own]
            along = node.framed.along(side)
            for number, bend in enumerate(sorted(bends, key=lambda bend: dot(bend.inner.at, along))):
                child = bend.other(node.framed.plate)
                if child in seen:
                    raise Ends(f"the plates are joined to a ring at {bend.inner.place}")
                seen.add(child)
                code = code_of(node, side, number if len(bends) > 1 else None)
                nodes.append(make_child(node, side, bend, child, code, sheet, fill))
    return nodes


def code_of(node: _Node, side: str, number: int | None) -> str:
    """The sides on the way from the root, as `ne` for the E side of north; a number where several stand on a side."""
    return node.code + side.lower() + ("" if number is None else str(number + 1))


def make_child(node: _Node, side: str, bend: Bend, plate: Plate, code: str, sheet: Sheet, fill: bool) -> _Node:
    """The node of a flange."""
    frame, is_up = node.framed, dot(bend.inward(node.framed.plate), node.framed.z) > 0
    x, out = frame.along(side), frame.outward(side)
    y = frame.z if is_up else scaled(frame.z, -1)
    child = frame_plate(plate, (x, y, scaled(out, -1) if is_up else out), bend, sheet, fill)
    return _Node(child, code, node, side, -child.outer["W"] - frame.start(side), UP if is_up else DOWN)


def stands_within(node: _Node) -> bool:
    """Whether a flange stays within the side on which it stands."""
    if node.on is None:
        return True
    side = node.on.framed.width if node.side in "NS" else node.on.framed.length
    return node.at >= -TOLERANCE and node.at + node.framed.width <= side + TOLERANCE


def written(nodes: list[_Node], sheet: Sheet, material: str) -> Tree:
    """The part on whole micrometres. Raises Ends where a number is out of the part file's range."""
    rounding = _Rounding()
    thickness, radius = rounding.whole(sheet.thickness), rounding.whole(sheet.radius)
    notes = [note for node in nodes for note in node.framed.notes]
    if thickness % 2:
        notes.append(f"the thickness, {thickness} micrometres, is odd and taken as {thickness + 1}")
        thickness += 1
    if not 2 <= thickness <= GREATEST_THICKNESS or not 1 <= radius <= GREATEST_RADIUS:
        raise Ends(f"thickness {sheet.thickness:.3f} mm or inner radius {sheet.radius:.3f} mm is out of range, to 50 mm")
    faces: dict[int, Face] = {}
    for node in nodes:
        width, length = rounding.whole(node.framed.width), rounding.whole(node.framed.length)
        if node.on is None:
            faces[id(node)] = Face(node.name, width, length)
            continue
        parent = faces[id(node.on)]
        room = parent.width if node.side in "NS" else parent.length
        width = min(width, room)
        at = min(max(rounding.whole(node.at), 0), room - width)
        faces[id(node)] = Face(node.name, width, length, parent.name, node.side, at, node.dir)
    if rounding.most > 0.1:
        notes.append(f"sizes are rounded to whole micrometres, by at most {rounding.most:.2f}")
    return Tree(Part(material, thickness, radius, tuple(faces.values())), list(dict.fromkeys(notes)))
