"""Slips: what the program doesn't refuse and hardly anybody means. They are told, and never stop anything.

Each rule is a function of the parsed files (and of the printed blank) that gives its slips: the file, the key, the
number that stands there and the usual one. Lengths are whole micrometres, k is in thousandths.
"""
from __future__ import annotations

import math
from collections.abc import Iterator
from dataclasses import dataclass, field
from typing import Any

from workbench.blank import Blank, read_blank
from workbench.refusals import show_length

Data = dict[str, Any]
THIN = 200
"""Below 0.2 mm of thickness a file is likely to be written in millimetres."""

SMALL = 1000
MOST_K_OFF = 150
LEAST_FINE = 10


@dataclass(frozen=True)
class Slip:
    """A slip: the kind of file, the table and the key where it stands, what is there and what is usual."""

    file: str
    key: str
    words: str
    found: int
    usual: int | None = None
    table: str = ""
    face: int | None = None
    take: str = ""
    edits: tuple[Data, ...] = field(default=())

    def as_data(self) -> Data:
        """The slip for the page."""
        return {"file": self.file, "key": self.key, "words": self.words, "face": self.face, "table": self.table,
                "found": self.found, "usual": self.usual, "take": self.take, "fix": list(self.edits) or None}


def all_slips(part: Data, tools: Data, machine: Data, printed_blank: str | None) -> list[Slip]:
    """The slips of three parsed files, as far as they are whole; the blank as the program printed it, or None."""
    blank = read_blank(printed_blank) if printed_blank else None
    rules = (lambda: thin_sheet(part), lambda: small_sizes(part), lambda: odd_deduction(part, tools),
             lambda: odd_dies(part, tools, machine), lambda: coarse_covers(machine),
             lambda: gauge_upside_down(machine), lambda: bare_edges(part, blank))
    found: list[Slip] = []
    for rule in rules:
        try:
            found += list(rule())
        except (KeyError, TypeError, ValueError, AttributeError, IndexError, ZeroDivisionError):
            continue  # a file that isn't whole is told by its refusal
    return found


def thousandfold(path: list[Any], value: int) -> tuple[Data, ...]:
    """The edit that takes a number as millimetres."""
    return ({"op": "set", "path": path, "value": value * 1000},)


def thin_sheet(part: Data) -> Iterator[Slip]:
    """A thickness that looks like millimetres."""
    thick = part["thickness"]
    if 0 < thick < THIN:
        yield Slip("part", "thickness", f"thickness {show_length(thick)}: the file has {thick} micrometres.", thick,
                   thick * 1000, take=f"Take {thick} mm", edits=thousandfold(["thickness"], thick))


def small_sizes(part: Data) -> Iterator[Slip]:
    """Sizes of faces that look like millimetres."""
    most = SMALL if part["thickness"] >= THIN else 10 * SMALL
    for number, face in enumerate(part["face"]):
        for key in ("width", "length"):
            size = face[key]
            if 0 < size < most:
                words = f"{key} of {face['name']} is {show_length(size)}: the file has {size} micrometres."
                yield Slip("part", key, words, size, size * 1000, f"face {number}", number, f"Take {size} mm",
                           thousandfold(["face", number, key], size))


def usual_k(thickness: int, radius: int) -> int:
    """DIN 6935's correction factor, in thousandths."""
    return max(0, min(1000, round(650 + 500 * math.log10(radius / thickness))))


def half_deduction(thickness: int, radius: int, k: int) -> float:
    """Half of a right-angle bend's deduction by DIN 6935."""
    return ((radius + thickness) * 2 - math.pi / 2 * (radius + k / 1000 * thickness / 2)) / 2


def sheet_row(part: Data, tools: Data) -> tuple[int, Data] | None:
    """The row of the tools file for the part's sheet, with its number."""
    wanted = part["material"], part["thickness"], part["radius"]
    for number, row in enumerate(tools.get("allow", [])):
        if (row.get("material"), row.get("thickness"), row.get("radius")) == wanted:
            return number, row
    return None


def odd_deduction(part: Data, tools: Data) -> Iterator[Slip]:
    """A factor k or a measured deduction that is far from DIN 6935, and what that does to the blank."""
    found = sheet_row(part, tools)
    if found is None:
        return
    number, row = found
    thick, radius = part["thickness"], part["radius"]
    usual = usual_k(thick, radius)
    half = half_deduction(thick, radius, usual)
    if "k" in row and abs(row["k"] - usual) > MOST_K_OFF:
        other = round((row["k"] - usual) / 1000 * thick / 2 * math.pi / 2)
        longer = "longer" if other > 0 else "shorter"
        words = (f"k = {row['k'] / 1000:g} for this sheet, where DIN 6935 has {usual / 1000:g}: each bend makes the "
                 f"blank {show_length(abs(other))} {longer}")
        yield Slip("tools", "k", words, row["k"], usual, f"allow {number}")
    if "q" in row and abs(row["q"] - half) > thick / 5:
        words = (f"the measured deduction of a bend is {show_length(2 * row['q'])}, where DIN 6935 has "
                 f"{show_length(round(2 * half))}")
        yield Slip("tools", "q", words, row["q"], round(half), f"allow {number}")


def odd_dies(part: Data, tools: Data, machine: Data) -> Iterator[Slip]:
    """Dies on the bed that don't suit the sheet: their opening, and the radius that they make in air bending."""
    thick, radius = part["thickness"], part["radius"]
    if thick < THIN:
        return
    used = {stage.get("die") for stage in machine.get("stage", [])}
    for die in tools.get("die", []):
        if die["name"] not in used:
            continue
        opening, made = die["v"], round(0.16 * die["v"])
        if not 4 <= opening / thick <= 20:
            words = (f"die {die['name']} of the machine file opens {show_length(opening)} for a sheet of "
                     f"{show_length(thick)}: usual are 6 to 12 times the thickness")
            yield Slip("machine", "die", words, opening, 8 * thick, f"die {die['name']}")
        elif not 0.5 <= radius / made <= 2:
            yield Slip("part", "radius", f"radius {show_length(radius)}: die {die['name']} makes about "
                       f"{show_length(round(made, -2))} in air bending", radius, made)


def coarse_covers(machine: Data) -> Iterator[Slip]:
    """Covers that aren't halved: bends are refused that would pass."""
    if machine and machine.get("fine", 0) < LEAST_FINE:
        fine = machine.get("fine", 0)
        words = (f"fine = {fine} in the machine file: with {LEAST_FINE} fewer bends are refused, and nothing else "
                 "changes")
        yield Slip("machine", "fine", words, fine, LEAST_FINE)


def gauge_upside_down(machine: Data) -> Iterator[Slip]:
    """A backgauge whose range is empty."""
    gauge = machine.get("gauge", {})
    if gauge.get("near", 0) > gauge.get("far", 0):
        yield Slip("machine", "near", f"the gauge's near {show_length(gauge['near'])} lies behind its far "
                   f"{show_length(gauge['far'])}: no stop is possible", gauge["near"], gauge["far"], "gauge")


def printed_half_deduction(part: Data, blank: Blank) -> int:
    """q, from the program's own blank: what the first flange has lost of its length at each of its bends."""
    first = part["face"][1]
    core, line = blank.faces[1], blank.bends[1]
    along = core.y1 - core.y0 if line.is_along_x else core.x1 - core.x0
    bends = 1 + any(face.get("on") == first["name"] and face.get("side") == "N" for face in part["face"])
    return int(first["length"] - along) // bends


def bare_edges(part: Data, blank: Blank | None) -> Iterator[Slip]:
    """Flanges that are narrower than their side: beside them the parent's edge is cut q inside the drawing."""
    faces = part["face"]
    if blank is None or len(faces) < 2 or len(blank.faces) != len(faces):
        return
    q = printed_half_deduction(part, blank)
    by_name = {face["name"]: face for face in faces}
    for number, face in enumerate(faces[1:], 1):
        on = by_name[face["on"]]
        whole = on["width" if face["side"] in "NS" else "length"]
        ends = face["at"], whole - face["at"] - face["width"]
        bare = [show_length(end) for end in ends if end > q + 2 * part["thickness"]]
        alone = not any(other is not face and other.get("on") == face["on"] and other.get("side") == face["side"]
                        for other in faces)
        if bare and alone:
            words = (f"beside bend {number} the edge of {on['name']} is cut {show_length(q)} inside the drawing, "
                     f"along {' and '.join(bare)}")
            yield Slip("part", "width", words, face["width"], whole, f"face {number}", number)
