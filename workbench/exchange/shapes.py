"""The shapes that `brake new` knows, each made of a few outside sizes as a drawing has them. Lengths in micrometres.

Walls that stand around a base begin `gap` from its corners: at least the half deduction q, which a side loses where
its neighbour is bent too. q is below `t + 0.2147 r` for any correction factor of DIN 6935.
"""
from __future__ import annotations

from dataclasses import dataclass
from typing import Callable

from .endings import WrongWords
from .lengths import shown
from .part_file import DOWN, UP, Face

LEAST_LIP = 1_000
"""A lip that room for its neighbours would leave shorter than this is refused."""


@dataclass(frozen=True)
class Sheet:
    """What all shapes share: thickness, inner radius, the gap at corners, and the length along the bends or 0."""

    thickness: int
    radius: int
    gap: int
    along: int = 0


@dataclass(frozen=True)
class Shape:
    """A shape: the names of its sizes, whether it needs a length along its bends, how it is made, and its picture."""

    sizes: tuple[str, ...]
    is_profile: bool
    make: Callable[[tuple[int, ...], Sheet], list[Face]]
    picture: tuple[str, ...]


def gap_of(thickness: int, radius: int) -> int:
    """The gap at corners that any correction factor allows, on a tenth of a millimetre upwards."""
    least = thickness + -(-2147 * radius // 10_000)
    return -(-least // 100) * 100


def make_l(sizes: tuple[int, ...], sheet: Sheet) -> list[Face]:
    """A base with one leg."""
    base, leg = sizes
    return [Face("base", sheet.along, base), Face("leg", sheet.along, leg, "base", "N", 0, UP)]


def make_u(sizes: tuple[int, ...], sheet: Sheet) -> list[Face]:
    """A web between two flanges that go up."""
    web, flange = sizes
    along = sheet.along
    return [Face("web", along, web), Face("north", along, flange, "web", "N", 0, UP),
            Face("south", along, flange, "web", "S", 0, UP)]


def make_z(sizes: tuple[int, ...], sheet: Sheet) -> list[Face]:
    """A web between a flange that goes up and one that goes down."""
    web, upper, lower = sizes
    along = sheet.along
    return [Face("web", along, web), Face("upper", along, upper, "web", "N", 0, UP),
            Face("lower", along, lower, "web", "S", 0, DOWN)]


def make_hat(sizes: tuple[int, ...], sheet: Sheet) -> list[Face]:
    """A web on two walls that go down, with a brim outwards on each."""
    return walled(sizes, sheet, DOWN, UP, "brim")


def make_c(sizes: tuple[int, ...], sheet: Sheet) -> list[Face]:
    """A web between two flanges that go up, with a lip inwards on each."""
    return walled(sizes, sheet, UP, UP, "lip")


def walled(sizes: tuple[int, ...], sheet: Sheet, first: str, second: str, name: str) -> list[Face]:
    """A web, two walls, and an edge on each wall."""
    web, wall, edge = sizes
    along = sheet.along
    return [Face("web", along, web), Face("north", along, wall, "web", "N", 0, first),
            Face("south", along, wall, "web", "S", 0, first), Face(f"n{name}", along, edge, "north", "N", 0, second),
            Face(f"s{name}", along, edge, "south", "N", 0, second)]


def make_tray(sizes: tuple[int, ...], sheet: Sheet) -> list[Face]:
    """A base with four walls that go up."""
    length, width, height = sizes
    gap = sheet.gap
    x, y = length - 2 * gap, width - 2 * gap
    for size, what in ((x, "length"), (y, "width")):
        if size < 1:
            raise WrongWords(f"the {what} leaves no wall between two gaps of {shown(gap)} mm at the corners")
    return [Face("base", length, width), Face("north", x, height, "base", "N", gap, UP),
            Face("south", x, height, "base", "S", gap, UP), Face("east", y, height, "base", "E", gap, UP),
            Face("west", y, height, "base", "W", gap, UP)]


def make_lipped(sizes: tuple[int, ...], sheet: Sheet) -> list[Face]:
    """A tray with a lip inwards on each wall; the short walls' lips leave room for the long ones'."""
    *tray, lip = sizes
    faces = make_tray(tuple(tray), sheet)
    walls = {face.name: face for face in faces[1:]}
    room = {name: wall.width - 2 * lip for name, wall in walls.items() if name in ("east", "west")}
    if min(room.values()) < LEAST_LIP:
        raise WrongWords(f"the lips on the length leave {shown(min(room.values()))} mm for those on the width: "
                         f"at least {shown(LEAST_LIP)} mm is needed")
    for name, wall in walls.items():
        at = lip if name in room else 0
        faces.append(Face(f"{name[0]}lip", wall.width - 2 * at, lip, name, "N", at, UP))
    return faces


def make_cover(sizes: tuple[int, ...], sheet: Sheet) -> list[Face]:
    """A tray with a return inwards on each of the two walls along the length, a tenth shorter at each end."""
    *tray, lip = sizes
    faces = make_tray(tuple(tray), sheet)
    for wall in faces[1:3]:
        at = wall.width // 10_000 * 1_000
        faces.append(Face(f"{wall.name[0]}return", wall.width - 2 * at, lip, wall.name, "N", at, UP))
    return faces


def make_box(sizes: tuple[int, ...], sheet: Sheet) -> list[Face]:
    """A tray whose walls along the length have a tab at each end, which lies inside at the other wall."""
    *tray, tab = sizes
    faces = make_tray(tuple(tray), sheet)
    height = faces[1].length - sheet.radius - sheet.gap - sheet.thickness
    if height < LEAST_LIP:
        raise WrongWords(f"the height leaves {shown(height)} mm for the tabs above the base: at least "
                         f"{shown(LEAST_LIP)} mm is needed")
    for wall in faces[1:3]:
        for side in "EW":
            at = 0 if side == "E" else faces[1].length - height
            faces.append(Face(f"{wall.name[0]}tab{side}", height, tab, wall.name, side, at, UP))
    return faces


SHAPES: dict[str, Shape] = {
    "l": Shape(("base", "leg"), True, make_l, (
        " |",
        " | leg",
        " +------- base",
    )),
    "u": Shape(("web", "flange"), True, make_u, (
        " |         |",
        " | flange  |",
        " +---web---+",
    )),
    "z": Shape(("web", "upper", "lower"), True, make_z, (
        "           | upper",
        " +---web---+",
        " | lower",
    )),
    "hat": Shape(("web", "wall", "brim"), True, make_hat, (
        "      +---web---+",
        "      |         | wall",
        " -----+         +-brim",
    )),
    "c": Shape(("web", "flange", "lip"), True, make_c, (
        " +--       --+ lip",
        " |           | flange",
        " +----web----+",
    )),
    "tray": Shape(("length", "width", "height"), False, make_tray, (
        "   +------------------+",
        "   |      north       |",
        " +-+------------------+-+",
        " | |                  | | width",
        " +-+-----length-------+-+",
        "   |      south       | height",
        "   +------------------+",
    )),
    "lipped": Shape(("length", "width", "height", "lip"), False, make_lipped, (
        "   +-----lip------+          the tray's walls, each with a lip inwards",
        "   |    wall      | height",
        "   +----length----+          seen from above: length by width",
    )),
    "cover": Shape(("length", "width", "height", "return"), False, make_cover, (
        " +--             --+ return  across the length: two walls with returns,",
        " |                 | height  and a plain wall at each end",
        " +------width------+",
    )),
    "box": Shape(("length", "width", "height", "tab"), False, make_box, (
        " +-tab           tab-+       seen from above: the walls along the length",
        " |                   | width end in tabs, inside at the other two",
        " +------length-------+",
    )),
}
