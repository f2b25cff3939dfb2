"""Which setups are tried, in which order, and when the search ends.

1. The part alone, without tools and machine: where that has no plan no tools help, and its cost is a bound.
2. Each single station that reaches every stroke.
3. Made-up tools that are in the way only where all tools of the rack are: no plan there ends the search, and their
   cost with one move is a bound for two stations and more.
4. Pairs of stations by blocks of six, and longer or otherwise made ones where the stock is short.
5. Where all this gave nothing: at the ends of the bed, where a part may reach past the beam, and with the punch over an
   end of a longer die.
6. The best ones with fewer pieces and no bend left uncovered, where the cost stays.
"""
from __future__ import annotations

from dataclasses import dataclass, field
from itertools import combinations, permutations, product
from typing import Callable, Iterator

from .bed import Stand
from .blocks import blocks, useful_pairs
from .errors import TriesUsed
from .job import Table
from .planner import Answer, Pieces
from .stations import Kind, Rack, Station
from .trials import MOST_SETUPS, MOST_STATIONS, Setup, Trial, Trials, covering, without_body

MOST_KINDS = 96
"""So many kinds of station are looked at, the preferred ones first."""
PATIENCE = 4
"""Blocks without a cheaper plan, once there is one, before the search ends."""
MOST_ELSEWHERE = 4
"""Runs with single stations at the ends of the bed, and as many with pairs."""
NOTHING = 10**12


@dataclass
class Found:
    """A setup with a plan."""

    setup: Setup
    stand: Stand
    cost: int
    steps: tuple[tuple[int, int], ...]
    pieces: tuple[Pieces, ...]

    @property
    def number_of_pieces(self) -> int:
        """Of all stations; where a die has its own pieces, these count too."""
        return sum(len(punch) + len(die) for punch, die in self.pieces)


@dataclass
class Outcome:
    """What a search found."""

    found: dict[Setup, Found] = field(default_factory=dict)
    bare: int | None = 0
    """The cost of the part alone; None where even that has no plan."""
    least: int | None = None
    """No setup of the tools that were looked at costs less; None where nothing is known."""
    first: int = 0
    """After how many runs the first plan was found."""
    kinds: list[Kind] = field(default_factory=list)
    left_out: int = 0
    """Kinds of station that weren't looked at."""
    ended: str = "all kinds of station were looked at"

    @property
    def best(self) -> int:
        """The least cost found."""
        return min((one.cost for one in self.found.values()), default=NOTHING)


class Search:
    """One search for a job and a rack."""

    def __init__(self, trials: Trials, rack: Rack, told: Callable[[str], None], thorough: bool = True) -> None:
        self.trials, self.rack, self.job, self.told, self.thorough = trials, rack, trials.job, told, thorough
        self.strokes = len(self.job.strokes)
        self.move = trials.machine["cost"]["stage"]
        self.outcome = Outcome()

    # ---------------------------------------------------------------- the course
    def run(self) -> Outcome:
        """Searches until a plan at the bound is found, everything was looked at, or the tries are used up."""
        try:
            self._run()
        except TriesUsed:
            self.outcome.ended = "all tries are used"
        return self.outcome

    def _run(self) -> None:
        out = self.outcome
        if not self.strokes:
            out.ended = "the part has no bends"
            return
        classes = self.rack.classes()
        bare = self.trials.bare()
        if bare.kind == "none":
            out.bare, out.ended = None, "the part's own flanges and the fingers leave no plan, whatever the tools"
            return
        out.bare = bare.cost
        lows = []
        for tools in classes:
            self.told(f"{len(tools)} pairs of a punch and a die")
            lows.append(self._class(tools, out.bare))
            if out.found and out.best <= min(lows):
                break
        if out.found:
            out.least = min([*lows, out.best])
        elif self.thorough:
            self._elsewhere()
            out.least = out.bare
        self._polish()

    def _class(self, tools: list[tuple[str, str]], bare: int) -> int:
        """Searches with tools of one height. Gives what no setup of them goes below."""
        out = self.outcome
        kinds = self.rack.kinds(tools)
        out.left_out += max(0, len(kinds) - MOST_KINDS)
        kinds = kinds[:MOST_KINDS]
        out.kinds += kinds
        if not covering(kinds, self.strokes):
            return NOTHING
        singles = [(kind.station,) for kind in kinds if covering((kind,), self.strokes)]
        for start in range(0, len(singles), MOST_SETUPS):
            self._real(singles[start:start + MOST_SETUPS])
            if out.best <= bare:
                return bare
        low = bare
        if out.best > bare + self.move:
            relaxed = self._relaxed(tools, kinds)
            if relaxed is None:
                return NOTHING
            low = max(low, relaxed)
        two = low + self.move
        if out.best > two:
            self._pairs(kinds, two)
        return min(out.best, two)

    def _elsewhere(self) -> None:
        """At the ends of the bed, and over the ends of longer dies."""
        kinds, stands = self.outcome.kinds, [Stand("left"), Stand("right")]
        tools = [(kind.station.punch, kind.station.die) for kind in kinds]
        if not kinds or self._relaxed(tools, kinds, without_body(self.trials.machine)) is None:
            return
        if any(kind.station.die_length for kind in kinds):
            stands += [Stand("middle", -1), Stand("middle", 1)]
        singles = [(kind.station,) for kind in kinds if covering((kind,), self.strokes)]
        pairs = [(kinds[a].station, kinds[b].station) for a, b in useful_pairs(kinds, self.strokes)
                 if self._alike(kinds[a].station, kinds[b].station)]
        for setups, where in ((singles, stands), (pairs, stands[:1] + stands[2:])):
            some = setups[:MOST_ELSEWHERE * MOST_SETUPS // len(where)]
            for start in range(0, len(some), per := MOST_SETUPS // len(where)):
                self._real(some[start:start + per], *where)
                if self.outcome.found:
                    return

    def _alike(self, one: Station, other: Station) -> bool:
        """Whether the tools of two stations are equally high."""
        return (self.rack.punches[one.punch]["height"] == self.rack.punches[other.punch]["height"]
                and self.rack.dies[one.die]["height"] == self.rack.dies[other.die]["height"])

    # ---------------------------------------------------------------- bounds
    def _relaxed(self, tools: list[tuple[str, str]], kinds: list[Kind], machine: Table | None = None) -> int | None:
        """A cost that no setup of these kinds goes below, moves left out; None where they have no plan."""
        if len(kinds) <= MOST_STATIONS and machine is None:
            return _bound(self.trials.together(tuple(kind.station for kind in kinds), 0))
        punches = [self.rack.punches[name] for name in dict.fromkeys(punch for punch, _ in tools)]
        dies = [self.rack.dies[name] for name in dict.fromkeys(die for _, die in tools)]
        low = 0
        for of_punches, of_dies in ((1, 1), (MOST_STATIONS, 1), (1, MOST_STATIONS)):
            some, under = _parted(punches, of_punches), _parted(dies, of_dies)
            lengths, uncovered = self._few_lengths(kinds, MOST_STATIONS // max(len(some), len(under)))
            made_up = [(_least_punch(a), _least_die(b), length) for a in some for b in under for length in lengths]
            bound = _bound(self.trials.relaxed(made_up, uncovered, machine))
            if bound is None:
                return None
            low = max(low, bound)
            if self.outcome.best <= low + self.move:
                break
        return low

    def _few_lengths(self, kinds: list[Kind], most: int) -> tuple[list[int], int]:
        """At most so many lengths, and how far a bend may reach past them so that each kind's strokes are reached."""
        lengths = sorted({kind.station.length for kind in kinds})
        per = -(-len(lengths) // most)
        parts = [lengths[start:start + per] for start in range(0, len(lengths), per)]
        more = max(part[-1] - part[0] for part in parts)
        return [part[0] for part in parts], min(self.job.uncovered + -(-more // 2), 1_000_000)

    # ---------------------------------------------------------------- trying
    def _note(self, trial: Trial) -> None:
        answer, out = trial.answer, self.outcome
        if not answer.is_plan:
            return
        if not out.found:
            out.first = self.trials.planner.runs
        setup = trial.setup
        if setup not in out.found:
            out.found[setup] = Found(setup, trial.stand, answer.cost, answer.steps, answer.pieces)

    def _real(self, setups: list[Setup], *stands: Stand) -> list[Trial]:
        trials = self.trials.real(setups, *stands)
        for trial in trials:
            self._note(trial)
        best = self.outcome.best
        self.told(f"{len(setups)} setups of up to {max(map(len, setups), default=0)} stations"
                  + (f", best {best}" if best < NOTHING else ""))
        return trials

    def _pairs(self, kinds: list[Kind], bound: int) -> None:
        """Tries the pairs block by block, down to the bound or until several blocks in a row gave nothing."""
        out, idle = self.outcome, 0
        for block in blocks(kinds, self.strokes):
            members = [kinds[at] for at in block]
            before = out.best
            self._block(members)
            if out.best <= bound:
                return
            idle = idle + 1 if out.found and out.best == before else 0
            if idle >= PATIENCE:
                out.ended = f"{idle} blocks gave no cheaper plan"
                return

    def _block(self, members: list[Kind]) -> None:
        """Tries a block's pairs and what its plan uses, where these can give a cheaper plan."""
        out = self.outcome
        stations = tuple(kind.station for kind in members)
        if self.trials.is_hopeless(stations):
            return
        free = self.trials.together(stations, 0)
        if free.kind == "none" or free.is_plan and free.cost + self.move >= out.best:
            return
        pairs = [(a.station, b.station) for a, b in combinations(members, 2) if covering((a, b), self.strokes)]
        more = [_in_order(stations, free.steps)] if free.is_plan and len(free.used) > 2 else []
        trials = self._real(more + pairs)
        if out.best > (free.cost if free.is_plan else 0) + self.move:
            self._make_otherwise([trial.setup for trial in trials if trial.answer.kind == "short"])
        if not out.found and free.is_plan:
            self._few_moves(stations)

    def _few_moves(self, stations: Setup) -> None:
        """The block's plan at the real price of moves, with its stations in the order of the shortest way."""
        answer = self.trials.together(stations)
        if not answer.is_plan:
            return
        setup = _in_order(stations, answer.steps)
        trials = self._real([setup])
        if trials and trials[0].answer.kind == "short":
            self._make_otherwise([setup])
        for found in list(self.outcome.found.values())[:1]:
            smaller = [found.setup[:at] + found.setup[at + 1:] for at in range(len(found.setup)) if len(found.setup) > 2]
            if smaller:
                self._real(smaller)

    def _make_otherwise(self, setups: list[Setup]) -> None:
        """Setups for which the stock is short, of longer stations or of other tools."""
        variants: dict[Setup, None] = {}
        ways = [self._variants(setup) for setup in setups]
        while ways and len(variants) < MOST_SETUPS:
            for way in list(ways):
                variant = next(way, None)
                if variant is None:
                    ways.remove(way)
                elif len(variants) < MOST_SETUPS:
                    variants[variant] = None
        if variants:
            self._real(list(variants))

    def _variants(self, setup: Setup) -> Iterator[Setup]:
        options = [[station, *self._others(station)] for station in setup]
        ways = sorted(product(*[range(len(option)) for option in options]), key=lambda way: (sum(way), way))
        for way in ways[1:400]:
            variant = tuple(option[at] for option, at in zip(options, way))
            if not self.trials.is_hopeless(variant):
                yield variant

    def _others(self, station: Station) -> list[Station]:
        """Stations in its place: longer ones of the same tools, then the shortest of other tools that reach as much."""
        serves = self.rack.serves(station)
        need = max(self.job.need(self.job.strokes[at]) for at in serves)
        same = [one for one in self.rack.stations(station.punch, station.die, need, 3) if one != station]
        heights = (self.rack.punches[station.punch]["height"], self.rack.dies[station.die]["height"])
        other = [one for die in list(self.rack.dies)[:4] for punch in list(self.rack.punches)[:8]
                 if (self.rack.punches[punch]["height"], self.rack.dies[die]["height"]) == heights
                 and (punch, die) != (station.punch, station.die)
                 for one in self.rack.stations(punch, die, need) if self.rack.serves(one) >= serves]
        return same + other[:4]

    # ---------------------------------------------------------------- the end
    def order_of(self, found: Found) -> tuple[int, int, int, int, Setup]:
        """What is better comes first: cost, stations, bends longer than their station, pieces."""
        bare = sum(self.job.stroke_of[bend].span > found.setup[stage].length for bend, stage in found.steps)
        return (found.cost, len(found.setup), bare, found.number_of_pieces, found.setup)

    def _polish(self) -> None:
        """The best few with fewer pieces, or long enough for all their bends, where the cost stays."""
        best = sorted(self.outcome.found.values(), key=self.order_of)[:3]
        variants: dict[Setup, None] = {}
        for found in best:
            for at, station in enumerate(found.setup):
                for other in self._handier(station):
                    variants[found.setup[:at] + (other,) + found.setup[at + 1:]] = None
        if variants and self.trials.planner.left:
            self._real(list(variants)[:MOST_SETUPS], best[0].stand)

    def _handier(self, station: Station) -> list[Station]:
        lengths = self.rack.of("punch", station.punch) if station.die_length else self.rack.both(station.punch, station.die)
        longer = lengths.longer(station.length, 12)
        few, pieces = [], lengths.pieces(station.length)
        for length in longer:
            if lengths.pieces(length) < pieces:
                pieces = lengths.pieces(length)
                few.append(length)
        whole = lengths.at_least(max(self.job.strokes[at].span for at in self.rack.serves(station)))
        chosen = dict.fromkeys([*([whole] if whole and whole > station.length else []), *few[:3]])
        stands = [(length, self.rack.of("die", station.die).at_least(length) if station.die_length else 0) for length in chosen]
        return [Station(station.punch, station.die, length, stand) for length, stand in stands if stand is not None]


def _bound(answer: Answer) -> int | None:
    """The cost of a plan, 0 where it isn't known, None where there is none."""
    return None if answer.kind == "none" else answer.cost


def _parted(tools: list[Table], most: int) -> list[list[Table]]:
    """The tools in at most so many parts, in their order."""
    per = -(-len(tools) // most)
    return [tools[start:start + per] for start in range(0, len(tools), per)]


def _in_order(stations: Setup, steps: tuple[tuple[int, int], ...]) -> Setup:
    """The stations that a plan uses, in the order in which the way between them is shortest."""
    used = sorted({stage for _, stage in steps})
    if len(used) > MOST_STATIONS:
        return tuple(stations[stage] for stage in used)
    moves = [(a, b) for (_, a), (_, b) in zip(steps, steps[1:]) if a != b]
    best = min(permutations(used), key=lambda order: (sum(abs(order.index(a) - order.index(b)) for a, b in moves), order))
    return tuple(stations[stage] for stage in best)


def _boxes_of_all(bodies: list[list[list[int]]]) -> list[list[int]]:
    """Boxes that lie in every one of the bodies, at most eight."""
    common = bodies[0]
    for body in bodies[1:]:
        met = [[max(a[0], b[0]), min(a[1], b[1]), max(a[2], b[2]), min(a[3], b[3])] for a in common for b in body]
        met = [box for box in met if box[0] < box[1] and box[2] < box[3]]
        common = sorted(met, key=lambda box: (-(box[1] - box[0]) * (box[3] - box[2]), box))[:8]
    return common


def _least_punch(punches: list[Table]) -> Table:
    """A punch that is in the way only where all of these are."""
    return {"height": punches[0]["height"], "nose": min(punch["nose"] for punch in punches),
            "body": _boxes_of_all([punch["body"] for punch in punches])}


def _least_die(dies: list[Table]) -> Table:
    """A die that is in the way only where all of these are, with the narrowest opening and the least flange of them."""
    return {"height": dies[0]["height"], "v": min(die["v"] for die in dies),
            "least_flange": min(die["least_flange"] for die in dies), "body": _boxes_of_all([die["body"] for die in dies])}
