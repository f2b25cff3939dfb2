"""What stands in the way where no plan was found: which setup got furthest, and what refuses the bends that are left."""
from __future__ import annotations

from collections import Counter
from dataclasses import dataclass
from pathlib import Path

from .bed import MIDDLE
from .job import Job
from .stations import Rack
from .trials import Setup, Trials

REASONS = {
    1: "it is longer than the station", 2: "a flange is shorter than the die's least flange",
    3: "the part meets a side frame", 4: "the part meets a punch or what stands above it", 5: "the part meets a punch's tip",
    6: "the part meets a die or what stands below it", 7: "the part meets itself",
    8: "the fingers find no place", 9: "the load is too great",
}
"""The kinds of reason of docs/geometry.md, in words."""


@dataclass(frozen=True)
class Furthest:
    """How far a setup without a plan gets, and which reasons refuse each bend there, the most frequent first."""

    setup: Setup
    folded: int
    reasons: dict[int, list[int]]


def read_rows(cert: Path) -> tuple[int, dict[int, list[int]]]:
    """Of a certificate that there is no plan: the most bends that are folded in a row, and the reasons in such rows."""
    most, counts, at_most = -1, {}, False
    with open(cert, encoding="ascii", errors="replace") as file:
        for line in file:
            if line.startswith("row "):
                folded = int(line.split(None, 2)[1]).bit_count()
                at_most = folded >= most
                if folded > most:
                    most, counts = folded, {}
            elif at_most and line.startswith("x "):
                words = line.split()
                counts.setdefault(int(words[1]), Counter())[int(words[4])] += 1
    return max(most, 0), {bend: [kind for kind, _ in sorted(count.items(), key=lambda item: (-item[1], item[0]))]
                          for bend, count in sorted(counts.items())}


def furthest_of(trials: Trials, setups: list[Setup], folder: Path) -> list[Furthest]:
    """Plans setups that have no plan once more, and says how far each gets; the furthest first."""
    found, trials.never = [], []
    for setup in setups:
        trials.tried.pop((setup, MIDDLE), None)
        got = trials.real([setup])
        cert = folder / "run.0"
        if got and got[0].answer.kind == "none" and cert.exists():
            folded, reasons = read_rows(cert)
            found.append(Furthest(setup, folded, reasons))
    return sorted(found, key=lambda one: (-one.folded, len(one.setup), one.setup))


def words_of(furthest: Furthest, job: Job) -> list[str]:
    """Lines for the user: how far the setup gets, and of each bend that is left there what refuses it."""
    names = ", ".join(f"{station.punch} over {station.die} of {station.length}" for station in furthest.setup)
    lines = [f"furthest {furthest.folded} of {job.bends} bends, with {names}"]
    for bend, kinds in furthest.reasons.items():
        lines.append(f"bend {bend} {job.part['face'][bend]['name']}: " + "; ".join(REASONS[kind] for kind in kinds[:3]))
    return lines


def lacking(job: Job, rack: Rack) -> list[str]:
    """The strokes for which the rack has no tools, or none that are long enough."""
    lines = []
    for stroke in job.strokes:
        name = "bend " + " ".join(map(str, stroke.bends))
        tools = [(punch, die) for punch in rack.punches for die in rack.dies
                 if job.serves(rack.punches[punch], rack.dies[die], stroke)]
        if not rack.punches or not rack.dies:
            continue
        if not tools:
            lines.append(f"{name}: no punch and die serve it (its flange of {stroke.flange}, loads, limits and the force)")
        elif not any(rack.stations(punch, die, job.need(stroke)) for punch, die in tools):
            longest = max((rack.of("punch", punch) if rack.own_dies else rack.both(punch, die)).longest() for punch, die in tools)
            lines.append(f"{name}: needs a station of {job.need(stroke)}, and the rack makes {longest} on this bed")
    return lines
