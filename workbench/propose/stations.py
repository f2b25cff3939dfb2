"""Kinds of station: a punch and a die of the rack, and the shortest length of them that reaches a stroke.

A longer station allows no stroke that a shorter one refuses, if both reach it. So of each punch and die the shortest
lengths are enough, as long as the stock makes all stations of a setup at once.
"""
from __future__ import annotations

import math
from dataclasses import dataclass

from .job import Job, Table
from .rack import Lengths, Stock, common, stock_of

Boxes = list[list[int]]
USUAL_V = (5, 12)
"""The opening of a die by the sheet's thickness, as shops choose it."""
RADIUS_OF_V = 0.16
"""The inner radius that air bending makes, by the opening: a rule of thumb."""


MOST_STATIONS_MADE = 300
"""Of tools of one height; what is made beyond isn't looked at."""


@dataclass(frozen=True, order=True)
class Station:
    """A punch and a die over one length; the die has a range of its own where `die_length` isn't 0."""

    punch: str
    die: str
    length: int
    die_length: int = 0

    @property
    def stand(self) -> int:
        """The room that it takes on the bed."""
        return self.die_length or self.length


@dataclass(frozen=True)
class Kind:
    """A station and the strokes that it reaches, by their places in the job's list."""

    station: Station
    serves: frozenset[int]


def inside(one: Boxes, other: Boxes) -> bool:
    """Whether each box of a body lies within a box of the other."""
    return all(any(b[0] <= a[0] and a[1] <= b[1] and b[2] <= a[2] and a[3] <= b[3] for b in other) for a in one)


def turned(punch: Table, name: str) -> Table:
    """The punch the other way round, under another name."""
    return {**punch, "name": name, "body": [[-box[1], -box[0], box[2], box[3]] for box in punch["body"]]}


def stand_alike(one: Table, other: Table) -> bool:
    """Whether two punches are in the way alike."""
    return all(one[key] == other[key] for key in ("height", "nose")) and sorted(one["body"]) == sorted(other["body"])


class Rack:
    """The tools that may be used, in their order of preference, and the lengths that their stock makes."""

    def __init__(self, job: Job, punches: list[Table], dies: list[Table], own_dies: bool, dies_are_named: bool) -> None:
        self.job, self.own_dies = job, own_dies
        self.top = job.machine["bed"][1] - job.machine["bed"][0]
        self.punches: dict[str, Table] = {tool["name"]: tool for tool in punches}
        order = dies if dies_are_named else sorted(dies, key=self._rank)
        self.dies: dict[str, Table] = {tool["name"]: tool for tool in order}
        self._lengths: dict[tuple[tuple[int, int], ...], Lengths] = {}

    def _rank(self, die: Table) -> tuple[bool, float, str]:
        """An opening of the usual size first, and then the one that makes the part's radius best."""
        thickness, radius = self.job.part["thickness"], self.job.part["radius"]
        usual = USUAL_V[0] * thickness <= die["v"] <= USUAL_V[1] * thickness
        return (not usual, round(abs(math.log(RADIUS_OF_V * die["v"] / radius)), 9), die["name"])

    def _made_of(self, stock: Stock) -> Lengths:
        key = tuple(sorted(stock.items()))
        if key not in self._lengths:
            self._lengths[key] = Lengths(stock, self.top)
        return self._lengths[key]

    def stock(self, kind: str, name: str) -> dict[int, int]:
        """The pieces of a tool; `kind` is punch or die."""
        tool = self.punches[name] if kind == "punch" else self.dies[name]
        return stock_of(tool["sections"])

    def both(self, punch: str, die: str) -> Lengths:
        """The lengths that are made of the same pieces of both."""
        return self._made_of(common(self.stock("punch", punch), self.stock("die", die)))

    def of(self, kind: str, name: str) -> Lengths:
        """The lengths of one tool."""
        return self._made_of(self.stock(kind, name))

    def stations(self, punch: str, die: str, need: int, more: int = 0) -> list[Station]:
        """The shortest stations of these tools that are no shorter than `need`, and so many of the next longer ones:
        of common pieces, and with a die of its own pieces where the program knows such and the punch is shorter."""
        if need > self.top:
            return []
        both = self.both(punch, die)
        shortest = both.at_least(need)
        found = [] if shortest is None else [Station(punch, die, length) for length in [shortest, *both.longer(shortest, more)]]
        if not self.own_dies:
            return found
        alone, under = self.of("punch", punch), self.of("die", die)
        first = alone.at_least(need)
        lengths = [] if first is None else [first, *alone.longer(first, more)]
        for length in lengths:
            stand = under.at_least(length)
            if stand is not None and both.at_least(length) != length and (shortest is None or length < shortest or more):
                found.append(Station(punch, die, length, stand))
        return found

    def pieces(self, station: Station) -> int:
        """The least number of pieces of a station's punch."""
        lengths = self.of("punch", station.punch) if station.die_length else self.both(station.punch, station.die)
        return lengths.pieces(station.length)

    def serves(self, station: Station) -> frozenset[int]:
        """The strokes that a station reaches and may make, by their places."""
        punch, die = self.punches[station.punch], self.dies[station.die]
        return frozenset(place for place, stroke in enumerate(self.job.strokes)
                         if station.length >= self.job.need(stroke) and self.job.serves(punch, die, stroke))

    def classes(self) -> list[list[tuple[str, str]]]:
        """Punches with dies, parted by their heights: tools of one setup are equally high. The best die comes first."""
        parted: dict[tuple[int, int], list[tuple[str, str]]] = {}
        for die in self.dies.values():
            for punch in self.punches.values():
                if any(self.job.serves(punch, die, stroke) for stroke in self.job.strokes):
                    parted.setdefault((punch["height"], die["height"]), []).append((punch["name"], die["name"]))
        return list(parted.values())

    def kinds(self, tools: list[tuple[str, str]]) -> list[Kind]:
        """For each punch and die and each stroke the shortest station, less those that another one stands for. Of a large
        rack the first ones alone."""
        needs = sorted({self.job.need(stroke) for stroke in self.job.strokes}, reverse=True)
        found: dict[Station, None] = {}
        for punch, die in tools:
            for need in needs:
                found.update(dict.fromkeys(self.stations(punch, die, need)))
            if len(found) > MOST_STATIONS_MADE:
                break
        kinds = [Kind(station, self.serves(station)) for station in found]
        return [kind for place, kind in enumerate(kinds) if kind.serves and not any(
            self._stands_for(other, kind) and (at < place or not self._stands_for(kind, other))
            for at, other in enumerate(kinds) if at != place)]

    def _stands_for(self, one: Kind, other: Kind) -> bool:
        """Whether wherever the other station may be used this one may be, and is in the way of no more."""
        a, b = one.station, other.station
        if a.length > b.length or a.stand > b.stand or not one.serves >= other.serves:
            return False
        punch, die = self.punches[a.punch], self.dies[a.die]
        other_punch, other_die = self.punches[b.punch], self.dies[b.die]
        slim_punch = a.punch == b.punch or (punch["nose"] <= other_punch["nose"] and inside(punch["body"], other_punch["body"]))
        slim_die = a.die == b.die or (die["v"] == other_die["v"] and inside(die["body"], other_die["body"]))
        return slim_punch and slim_die
