"""Recognises a folded sheet in a body's faces: bends as coaxial quarter cylinders, and plates of two skins each."""
from __future__ import annotations

from dataclasses import dataclass, field

from .body_faces import FLAT, TOLERANCE, BodyFace, axis_point, is_coaxial, off_axis
from .endings import Ends
from .vectors import Vector, cross, dot, minus, scaled, size, unit

MOST_BENDS = 12
ANGLE = 0.01
"""Degrees by which a right angle may be off."""


@dataclass(eq=False)
class Plate:
    """A plate by its skins, and the bends at it."""

    skins: set[BodyFace] = field(default_factory=set)
    bends: list["Bend"] = field(default_factory=list)

    @property
    def points(self) -> list[Vector]:
        """Points of the edges of both skins."""
        return [point for skin in self.skins for point in skin.points]


@dataclass(eq=False)
class Bend:
    """A bend: its inner and outer cylinders, the two inner skins beside it, and the plates of these."""

    inner: BodyFace
    outer: BodyFace
    sides: tuple[BodyFace, BodyFace]
    plates: list[Plate]
    cylinders: list[BodyFace]

    def other(self, plate: Plate) -> Plate:
        """The plate at the other side."""
        return self.plates[1] if self.plates[0] is plate else self.plates[0]

    def inward(self, plate: Plate) -> Vector:
        """The outward normal of the plate's inner skin: to the side to which the sheet is bent there."""
        return self.towards_axis(self.sides[0 if self.plates[0] is plate else 1])

    def towards_axis(self, skin: BodyFace) -> Vector:
        """From a skin square to the axis."""
        distance = dot(minus(axis_point(self.inner), skin.at), skin.normal)
        return unit(scaled(skin.normal, distance))


@dataclass(frozen=True)
class Sheet:
    """The plates and bends of a body, with thickness and inner radius in mm."""

    plates: list[Plate]
    bends: list[Bend]
    thickness: float
    radius: float


def recognise(faces: list[BodyFace], fill: bool) -> Sheet:
    """The plates and bends of a body. Raises Ends, which names the face that is of no sheet of this kind."""
    beside = neighbours(faces)
    pairs = bend_pairs(faces, beside)
    thickness, radius = measures(pairs)
    owner: dict[BodyFace, Plate] = {}
    bends = [make_bend(inner, outer, beside, owner, thickness) for inner, outer in pairs]
    grow_plates(owner, beside)
    plates = list(dict.fromkeys(owner.values()))
    for bend in bends:
        bend.plates = [owner[bend.sides[0]], owner[bend.sides[1]]]
    bends = joined(bends, fill)
    for bend in bends:
        for plate in bend.plates:
            plate.bends.append(bend)
    if len(bends) > MOST_BENDS:
        raise Ends(f"{len(bends)} bends: at most {MOST_BENDS} can be planned")
    if len(plates) != len(bends) + 1:
        raise Ends(f"{len(plates)} plates and {len(bends)} bends: the part is closed to a ring, or a plate is split in two")
    known = {face for face in owner} | {cylinder for bend in bends for cylinder in bend.cylinders}
    keep_edges(faces, known, beside)
    return Sheet(plates, bends, thickness, radius)


def neighbours(faces: list[BodyFace]) -> dict[BodyFace, list[tuple[BodyFace, bool]]]:
    """The faces beside each face, and whether the edge between is straight."""
    by_edge: dict[int, list[BodyFace]] = {}
    for face in faces:
        for edge in face.edges:
            by_edge.setdefault(edge.number, []).append(face)
    return {face: [(other, edge.is_line) for edge in face.edges for other in by_edge[edge.number] if other is not face]
            for face in faces}


Beside = dict[BodyFace, list[tuple[BodyFace, bool]]]


def tangents(face: BodyFace, beside: Beside) -> list[BodyFace]:
    """The planes that go on smoothly from a cylinder, at its straight edges."""
    found = []
    for other, is_line in beside[face]:
        if is_line and other.kind == "Plane" and abs(dot(other.normal, face.axis)) <= FLAT:
            distance = abs(dot(minus(other.at, axis_point(face)), other.normal))
            if abs(distance - face.radius) <= TOLERANCE and other not in found:
                found.append(other)
    return found


def bend_pairs(faces: list[BodyFace], beside: Beside) -> list[tuple[BodyFace, BodyFace]]:
    """The inner and outer cylinder of each bend. Raises Ends for one that isn't a right angle, and where there is none."""
    round_ones = [face for face in faces if face.kind == "Cylinder" and len(tangents(face, beside)) == 2]
    pairs = []
    for inner in round_ones:
        outers = [outer for outer in round_ones if outer.radius > inner.radius + TOLERANCE and is_coaxial(inner, outer)
                  and overlaps(inner, outer)]
        if not outers:
            continue
        if abs(inner.sweep - 180) <= ANGLE:
            raise Ends(f"the sheet is folded back at {inner.place}: hems aren't known")
        if abs(inner.sweep - 90) > ANGLE:
            raise Ends(f"the bend at {inner.place} turns by {inner.sweep:.3f} degrees: only right angles are known")
        pairs.append((inner, min(outers, key=lambda outer: outer.radius)))
    if not pairs:
        slanted = next((face for face in faces if face.kind not in ("Plane", "Cylinder")), None)
        if slanted:
            raise Ends(f"{slanted.place} is a {slanted.kind.lower()}: only planes and right-angle bends are known")
        raise Ends("no bend was found: two coaxial quarter cylinders with a plane at each side, as sheet metal has them")
    return pairs


def overlaps(inner: BodyFace, outer: BodyFace) -> bool:
    """Whether two coaxial cylinders lie in one quarter, beside one another along their axis."""
    a, b = unit(off_axis(inner, inner.at)), unit(off_axis(outer, outer.at))
    spans = [[dot(point, inner.axis) for point in face.points] for face in (inner, outer)]
    return dot(a, b) > 0.9 and max(map(min, spans)) < min(map(max, spans)) - TOLERANCE


def measures(pairs: list[tuple[BodyFace, BodyFace]]) -> tuple[float, float]:
    """Thickness and inner radius, the same at every bend. Raises Ends."""
    first, first_outer = pairs[0]
    thickness, radius = first_outer.radius - first.radius, first.radius
    for inner, outer in pairs[1:]:
        if abs(inner.radius - radius) > TOLERANCE:
            raise Ends(f"two inner radii: {radius:.3f} mm at {first.place}, {inner.radius:.3f} mm at {inner.place}")
        if abs(outer.radius - inner.radius - thickness) > TOLERANCE:
            raise Ends(f"two thicknesses: {thickness:.3f} mm at {first.place}, {outer.radius - inner.radius:.3f} mm "
                       f"at {inner.place}")
    return thickness, radius


def make_bend(inner: BodyFace, outer: BodyFace, beside: Beside, owner: dict[BodyFace, Plate],
              thickness: float) -> Bend:
    """A bend with the skins beside it, which become plates or are added to those that they have. Raises Ends."""
    first, second = tangents(inner, beside)
    for skin in (first, second):
        backs = [back for back in tangents(outer, beside) if size(cross(back.normal, skin.normal)) <= FLAT
                 and abs(abs(dot(minus(back.at, skin.at), skin.normal)) - thickness) <= TOLERANCE]
        if len(backs) != 1:
            raise Ends(f"beside the bend at {inner.place} there is no plate {thickness:.3f} mm thick at {skin.place}")
        unite(owner, skin, backs[0])
    return Bend(inner, outer, (first, second), [], [inner, outer])


def unite(owner: dict[BodyFace, Plate], *skins: BodyFace) -> None:
    """Makes one plate of these skins and of the plates that they are of."""
    whole = Plate(set(skins))
    for skin in skins:
        if skin in owner:
            whole.skins |= owner[skin].skins
    for skin in whole.skins:
        owner[skin] = whole


def grow_plates(owner: dict[BodyFace, Plate], beside: Beside) -> None:
    """Adds to each skin the faces beside it in its own plane: a skin that was drawn in pieces."""
    todo = list(owner)
    while todo:
        skin = todo.pop()
        for other, _ in beside[skin]:
            is_flush = other.kind == "Plane" and size(cross(other.normal, skin.normal)) <= FLAT \
                and abs(dot(minus(other.at, skin.at), skin.normal)) <= TOLERANCE
            if is_flush and owner.get(other) is not owner[skin]:
                if other not in owner:
                    todo.append(other)
                unite(owner, skin, other)


def joined(bends: list[Bend], fill: bool) -> list[Bend]:
    """Bends between the same two plates as one that has a window. Raises Ends unless it is to be filled."""
    whole: list[Bend] = []
    for bend in bends:
        same = next((other for other in whole if set(other.plates) == set(bend.plates)), None)
        if same is None:
            whole.append(bend)
        elif fill:
            same.cylinders += bend.cylinders
        else:
            raise Ends(f"the bend at {same.inner.place} goes on at {bend.inner.place}: a bend with a window "
                       "(--fill takes it as whole)")
    return whole


def keep_edges(faces: list[BodyFace], known: set[BodyFace], beside: Beside) -> None:
    """Refuses a face that is neither of a plate nor of a bend nor an edge through the sheet. Raises Ends."""
    for face in faces:
        if face not in known and len({other for other, _ in beside[face] if other in known}) < 2:
            raise Ends(f"{face.place}, a {face.kind.lower()}, is neither of a plate nor of a bend nor an edge that is "
                       "cut through the sheet")
