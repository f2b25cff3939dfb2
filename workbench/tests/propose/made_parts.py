"""Parts, racks and machines that are made from a number, for the measurement of `brake propose`.

Nine kinds of everyday part, 10 to 600 mm, of sheet of 0.8 to 4 mm; racks of the lengths in which tools are sold, of
which there are one or two pieces each. The same number gives the same files.
"""
from __future__ import annotations

import random
from dataclasses import dataclass
from typing import Any, Callable

import tomlkit

Table = dict[str, Any]
THICKNESSES = (800, 1000, 1200, 1500, 2000, 2500, 3000, 4000)
CUT = (10_000, 15_000, 20_000, 40_000, 50_000, 100_000, 200_000, 300_000, 415_000, 835_000)
UNCUT = (415_000, 835_000)
BED = 3_100_000


@dataclass(frozen=True)
class Made:
    """The three files of a number, as texts, and what they are."""

    name: str
    rack: str
    part: str
    tools: str
    machine: str


class Faces:
    """The faces of a part, built one on the other."""

    def __init__(self, width: int, length: int) -> None:
        self.rows: list[Table] = [{"name": "base", "width": width, "length": length}]

    def add(self, name: str, on: str, side: str, length: int, direction: str = "up", inset: int = 0) -> str:
        """A flange over the whole of a side, less `inset` at both ends."""
        below = next(row for row in self.rows if row["name"] == on)
        whole = below["width"] if side in "NS" else below["length"]
        self.rows.append({"name": name, "on": on, "side": side, "at": inset, "width": whole - 2 * inset,
                          "length": length, "dir": direction})
        return name


def _mm(rng: random.Random, low: int, high: int) -> int:
    return rng.randint(low, max(low, high)) * 1000


def _flange(rng: random.Random, t: int, most: int) -> int:
    """A flange that a usual die bends."""
    return _mm(rng, max(10, 7 * t // 1000), most)


def _profile(rng: random.Random, t: int) -> Faces:
    faces = Faces(_mm(rng, 40, 600), _mm(rng, 20, 120))
    before = "base"
    for at in range(rng.randint(2, 6)):
        direction = rng.choice(("up", "down")) if at else "up"
        before = faces.add(f"f{at}", before, "N", _flange(rng, t, 60), direction)
    return faces


def _hat(rng: random.Random, t: int) -> Faces:
    faces = Faces(_mm(rng, 50, 600), _mm(rng, 30, 200))
    height, brim = _flange(rng, t, 70), _flange(rng, t, 40)
    for side in "NS":
        faces.add(f"wall{side}", "base", side, height)
        faces.add(f"brim{side}", f"wall{side}", "N", brim, "down")
    if rng.random() < 0.3:
        for side in "NS":
            faces.add(f"lip{side}", f"brim{side}", "N", _flange(rng, t, 20), "down")
    return faces


def _c_channel(rng: random.Random, t: int) -> Faces:
    faces = Faces(_mm(rng, 50, 600), _mm(rng, 40, 250))
    height, lip = _flange(rng, t, 80), _flange(rng, t, 25)
    for side in "NS":
        faces.add(f"wall{side}", "base", side, height)
        faces.add(f"lip{side}", f"wall{side}", "N", lip)
    return faces


def _walls(rng: random.Random, t: int, faces: Faces, height: int, gap: int, sides: str = "NESW") -> None:
    for side in sides:
        faces.add(f"wall{side}", "base", side, height, "up", gap)


def _tray(rng: random.Random, t: int) -> Faces:
    faces = Faces(_mm(rng, 60, 600), _mm(rng, 60, 400))
    _walls(rng, t, faces, _flange(rng, t, 60), 2 * t + 500)
    return faces


def _cover(rng: random.Random, t: int) -> Faces:
    faces = Faces(_mm(rng, 120, 600), _mm(rng, 100, 400))
    _walls(rng, t, faces, _flange(rng, t, 50), 2 * t + 500)
    for side in rng.choice(("NS", "EW", "NESW")):
        faces.add(f"lip{side}", f"wall{side}", "N", _flange(rng, t, 20), "up", _mm(rng, 12, 30))
    return faces


def _box(rng: random.Random, t: int) -> Faces:
    faces = Faces(_mm(rng, 80, 500), _mm(rng, 80, 400))
    _walls(rng, t, faces, _mm(rng, 40, 150), 2 * t + 500)
    if rng.random() < 0.5:
        for side in "NS":
            faces.add(f"lip{side}", f"wall{side}", "N", _flange(rng, t, 20), rng.choice(("up", "down")), _mm(rng, 15, 30))
    return faces


def _lid(rng: random.Random, t: int) -> Faces:
    faces = Faces(_mm(rng, 80, 600), _mm(rng, 80, 500))
    _walls(rng, t, faces, _flange(rng, t, 30), 2 * t + 500)
    for side in rng.choice(("", "N", "NS", "NESW")):
        faces.add(f"rim{side}", f"wall{side}", "N", _flange(rng, t, 20), "down", 2 * t)
    return faces


def _shelf(rng: random.Random, t: int) -> Faces:
    faces = Faces(_mm(rng, 200, 600), _mm(rng, 100, 400))
    height = _flange(rng, t, 40)
    _walls(rng, t, faces, height, 2 * t + 500, "NS")
    _walls(rng, t, faces, max(10_000, height - 3 * t), 2 * t + 500, "EW")
    for side in "NS":
        faces.add(f"return{side}", f"wall{side}", "N", _flange(rng, t, 20), "up", _mm(rng, 15, 40))
        if rng.random() < 0.3:
            faces.add(f"hem{side}", f"return{side}", "N", _flange(rng, t, 15), "up", 2 * t)
    return faces


def _bracket(rng: random.Random, t: int) -> Faces:
    faces = Faces(_mm(rng, 30, 250), _mm(rng, 30, 200))
    back, cheeks = _flange(rng, t, 120), rng.choice(("", "E", "EW"))
    faces.add("back", "base", "N", back, "up", 2 * t + 500 if cheeks else 0)
    for side in cheeks:
        faces.add(f"cheek{side}", "base", side, _flange(rng, t, 60), rng.choice(("up", "down")), 2 * t + 500)
    if rng.random() < 0.6:
        faces.add("lip", "back", "N", _flange(rng, t, 30), rng.choice(("up", "down")))
    return faces


KINDS: dict[str, Callable[[random.Random, int], Faces]] = {
    "profile": _profile, "hat": _hat, "c": _c_channel, "tray": _tray, "cover": _cover, "box": _box, "lid": _lid,
    "shelf": _shelf, "bracket": _bracket,
}
RACKS = ("full", "thin", "uncut")


def _punches(counts: dict[int, int]) -> list[Table]:
    sections = [[length, count] for length, count in counts.items()]
    bodies = {
        "sword": (3000, [[-4000, 4000, 4000, 70_000], [-13_000, 13_000, 70_000, 120_000]]),
        "goose": (3000, [[-3000, 4000, 4000, 12_000], [1000, 12_000, 12_000, 25_000], [8000, 24_000, 25_000, 75_000],
                         [-8000, 24_000, 75_000, 95_000], [-7000, 7000, 95_000, 120_000]]),
        "deep": (3000, [[-3000, 4000, 4000, 15_000], [1000, 15_000, 15_000, 40_000], [12_000, 40_000, 40_000, 95_000],
                        [-10_000, 40_000, 95_000, 112_000], [-7000, 7000, 112_000, 120_000]]),
        "straight": (6000, [[-6000, 6000, 6000, 60_000], [-13_000, 13_000, 60_000, 120_000]]),
    }
    return [{"name": name, "height": 120_000, "nose": nose, "body": body, "sections": sections,
             "limit": 600 if name == "sword" else 1000} for name, (nose, body) in bodies.items()]


def _die(v: int, counts: dict[int, int]) -> Table:
    half, outer = v // 2, v // 2 + 7000 + v // 4
    body = [[-outer, -half, -60_000, 0], [-half, half, -60_000, -half], [half, outer, -60_000, 0]]
    return {"name": f"V{v // 1000}", "height": 60_000, "v": v, "least_flange": v * 6 // 10, "body": body,
            "sections": [[length, count] for length, count in counts.items()]}


def _tools(rng: random.Random, rack: str, t: int) -> str:
    def stock(lengths: tuple[int, ...]) -> dict[int, int]:
        return {length: 1 if rack == "thin" else rng.randint(1, 2) for length in lengths}
    punches = _punches(stock(CUT))
    dies_of = stock(UNCUT if rack == "uncut" else CUT)
    dies = [_die(v, dies_of) for v in (8000, 12_000, 16_000, 24_000, 32_000)]
    loads = [{"material": "S235", "thickness": t, "v": die["v"], "load": max(1, 650 * (t // 100) ** 2 * 10 // die["v"])}
             for die in dies]
    allow = [{"material": "S235", "thickness": t, "radius": t, "k": 650}]
    return tomlkit.dumps({"allow": allow, "punch": punches, "die": dies, "load": loads})


def _machine(number: int) -> str:
    gauge = {"near": 5000, "far": 700_000, "inset": 5000, "finger": 10_000, "gap": 10_000, "depth": 20_000,
             "above": 10_000, "below": 10_000}
    if number % 2:
        gauge["upright"] = 1
    cost = {"stroke": 100, "quarter": 20, "half": 30, "flip": 60, "roll": 80, "stage": 40}
    return tomlkit.dumps({
        "bed": [0, BED], "uncovered": 5000, "frames": [[-500_000, -300_000], [BED + 300_000, BED + 500_000]],
        "upper": [[0, BED, -60_000, 60_000, 0, 300_000]], "lower": [[0, BED, -30_000, 30_000, -300_000, 0]],
        "force": 1_000_000, "fine": 10, "gauge": gauge, "cost": cost})


def made(number: int) -> Made:
    """The files of a number from 0."""
    rng = random.Random(f"brake {number}")
    kind, rack = list(KINDS)[number % len(KINDS)], RACKS[number // len(KINDS) % len(RACKS)]
    t = rng.choice(THICKNESSES)
    faces = KINDS[kind](rng, t)
    part = tomlkit.dumps({"material": "S235", "thickness": t, "radius": t, "face": faces.rows[:13]})
    return Made(f"{kind}_{number}", rack, part, _tools(rng, rack, t), _machine(number))
