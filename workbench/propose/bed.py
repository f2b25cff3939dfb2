"""Where the stations of a setup stand on the bed."""
from __future__ import annotations

from dataclasses import dataclass
from typing import NamedTuple

from .job import Job
from .stations import Station

MM = 1000
LEAST_GAP = 50 * MM
"""Between two stations."""
MARGIN = 10 * MM
"""Beside what a part reaches past its station."""
FAR = 19_900_000
"""The ends of a bed without end, within what a machine file may say."""


class Stand(NamedTuple):
    """How a setup's stations stand."""

    spot: str = "middle"
    """middle: in the middle of the bed; left: from its left end on, and with several stations up to its right end;
    right: up to its right end."""
    die: int = 0
    """The punch stands over the middle of its die (0), over the die's left end (-1) or its right end (1)."""


MIDDLE = Stand()


@dataclass(frozen=True)
class Placed:
    """A station that begins at `at`; its die begins at `die_at`."""

    station: Station
    at: int
    die_at: int


def overhang(job: Job, station: Station) -> int:
    """How far the flat part may reach past the station, on either side."""
    beyond = [max(0, (stroke.span - station.length) // 2) + stroke.beside
              for stroke in job.strokes if job.need(stroke) <= station.length]
    return max(beyond, default=0)


def _up(length: int) -> int:
    return -(-length // MM) * MM


def _placed(station: Station, die_at: int, over: int) -> Placed:
    room = station.stand - station.length
    inset = {0: room // 2 // MM * MM, -1: 0, 1: room}[over]
    return Placed(station, die_at + inset, die_at)


def free_range(job: Job) -> tuple[int, int]:
    """The longest range of the bed that no side frame blocks."""
    ends = tuple(job.machine["bed"])
    frames = sorted(tuple(frame) for frame in job.machine.get("frames", []))
    ranges, start = [], ends[0]
    for low, high in frames:
        if high > start and low < ends[1]:
            ranges.append((start, max(start, low)))
            start = max(start, high)
    ranges.append((start, max(start, ends[1])))
    return max(ranges, key=lambda r: (r[1] - r[0], -r[0]))


def place(job: Job, stations: tuple[Station, ...], stand: Stand = MIDDLE) -> list[Placed] | None:
    """Places on the bed with room between them for what a part reaches past; None where they don't fit."""
    low, high = free_range(job)
    room = high - low - sum(station.stand for station in stations)
    if room < 0:
        return None
    if stand.spot == "middle":
        gaps = _gaps(job, stations, room)
        at = max(low, low + (room - sum(gaps)) // 2 // MM * MM)
    elif len(stations) == 1:
        gaps, at = [], low if stand.spot == "left" else low + room
    else:
        gaps, at = [room // (len(stations) - 1)] * (len(stations) - 1), low
    placed = []
    for station, gap in zip(stations, [*gaps, 0]):
        placed.append(_placed(station, at, stand.die))
        at += station.stand + gap
    return placed


def _gaps(job: Job, stations: tuple[Station, ...], room: int) -> list[int]:
    """The room between neighbours, less where the bed is short of it."""
    gaps = [max(_up(max(overhang(job, one), overhang(job, other)) + MARGIN), LEAST_GAP)
            for one, other in zip(stations, stations[1:])]
    total = sum(gaps)
    return gaps if total <= room else [gap * room // total // MM * MM for gap in gaps]


def place_far(job: Job, stations: tuple[Station, ...]) -> list[Placed] | None:
    """Places on a bed without end, so far apart that no station is in another's way; None where even that is too short."""
    at, placed = -FAR, []
    for station in stations:
        side = _up(overhang(job, station)) + 100 * MM
        at += side
        placed.append(_placed(station, at, 0))
        at += station.stand + side
    return placed if at <= FAR else None
