"""The strokes of a part, as the blank sheet of the program shows them, and which tools may serve a stroke.

This narrows the choice alone: what a stroke meets is decided by the program.
"""
from __future__ import annotations

from dataclasses import dataclass
from typing import Any

Table = dict[str, Any]
NO_LIMIT = 10**12


@dataclass(frozen=True)
class Stroke:
    """The bends that are bent together: one bend, or with gangs the flanges of one side and direction."""

    bends: tuple[int, ...]
    span: int
    """From the least to the greatest end of the bends' lines, in micrometres."""
    line: int
    """The sum of the lengths of the lines."""
    flange: int
    """How far the shortest face beside the lines reaches away from them, flat."""
    beside: int
    """How far the blank reaches past the span, on the side where it reaches farther."""


@dataclass(frozen=True)
class Blank:
    """The blank sheet: its size, the faces' rectangles and the ends of the bend lines."""

    size: tuple[int, int]
    faces: tuple[tuple[int, ...], ...]
    bends: tuple[tuple[int, ...], ...]


def read_blank(lines: list[str]) -> Blank:
    """Reads what `brake blank` prints."""
    size, faces, bends = (0, 0), [], []
    for line in lines:
        words = line.split()
        if words[0] == "size":
            size = (int(words[1]), int(words[2]))
        elif words[0] == "face":
            faces.append(tuple(map(int, words[-4:])))
        elif words[0] == "bend":
            bends.append(tuple(map(int, words[2:6])))
    return Blank(size, tuple(faces), tuple(bends))


def _stroke(blank: Blank, parents: list[int], bends: tuple[int, ...]) -> Stroke:
    first = blank.bends[bends[0] - 1]
    axis = 0 if first[1] == first[3] else 1
    ends = [blank.bends[bend - 1][place] for bend in bends for place in (axis, axis + 2)]
    low, high = min(ends), max(ends)
    line = sum(abs(blank.bends[bend - 1][axis + 2] - blank.bends[bend - 1][axis]) for bend in bends)
    across = 1 - axis
    flange = min(blank.faces[face][across + 2] - blank.faces[face][across]
                 for bend in bends for face in (bend, parents[bend]))
    return Stroke(bends, high - low, line, flange, max(low, blank.size[axis] - high))


class Job:
    """A part, the shop's tools and a machine, as the program took them."""

    def __init__(self, part: Table, tools: Table, machine: Table, blank: Blank) -> None:
        self.part, self.tools, self.machine, self.blank = part, tools, machine, blank
        faces = part["face"]
        names = [face["name"] for face in faces]
        parents = [0] + [names.index(face["on"]) for face in faces[1:]]
        groups: dict[Any, list[int]] = {}
        for bend, face in enumerate(faces[1:], 1):
            key = (face["on"], face["side"], face["dir"]) if machine.get("gang", 0) else bend
            groups.setdefault(key, []).append(bend)
        self.strokes = tuple(_stroke(blank, parents, tuple(bends)) for bends in groups.values())
        self.stroke_of = {bend: stroke for stroke in self.strokes for bend in stroke.bends}

    @property
    def bends(self) -> int:
        """The number of bends."""
        return len(self.part["face"]) - 1

    @property
    def uncovered(self) -> int:
        """How far a bend may reach past its station at each end."""
        return int(self.machine["uncovered"])

    def need(self, stroke: Stroke) -> int:
        """The shortest station that reaches the stroke's bends, at least 1."""
        return max(1, stroke.span - 2 * self.uncovered)

    def load(self, die: Table) -> int | None:
        """Newtons per millimetre over this die, 0 where the shop states none; None where no row or two rows match."""
        rows = self.tools.get("load", [])
        if not rows:
            return 0
        wanted = (self.part["material"], self.part["thickness"], die["v"])
        loads = [row["load"] for row in rows if (row["material"], row["thickness"], row["v"]) == wanted]
        return loads[0] if len(loads) == 1 else None

    def serves(self, punch: Table, die: Table, stroke: Stroke) -> bool:
        """Whether flange, load and force allow the stroke with these tools."""
        load = self.load(die)
        if load is None or stroke.flange < die["least_flange"]:
            return False
        limit = min([tool["limit"] for tool in (punch, die) if tool.get("limit")] or [NO_LIMIT])
        force = self.machine.get("force", 0) or NO_LIMIT
        return load <= limit and load * stroke.line <= 1000 * force
