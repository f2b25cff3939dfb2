"""The files of a run: setups from the real rack on the real bed, and made-up stations for bounds."""
from __future__ import annotations

from collections import Counter
from dataclasses import dataclass
from typing import Any, Iterable

import tomlkit

from .bed import FAR, MIDDLE, Placed, Stand, place, place_far
from .job import Job, Table
from .planner import Answer, Planner
from .stations import Kind, Rack, Station

Setup = tuple[Station, ...]
MOST_SETUPS = 16
"""Of one setups file."""
MOST_STATIONS = 6
"""Of one setup."""


def toml(table: dict[str, Any]) -> str:
    """A table's own keys as TOML; missing ones and lists of tables are left out."""
    return tomlkit.dumps({key: value for key, value in table.items()
                          if value != [] and not (isinstance(value, list) and value and isinstance(value[0], dict))})


def setups_text(setups: list[tuple[str, list[Placed]]]) -> str:
    """A setups file without comments."""
    lines = []
    for name, placed in setups:
        lines.append(f'[[setup]]\nname = "{name}"\n')
        for one in placed:
            lines.append("[[setup.stage]]\n" + tomlkit.dumps(stage_table(one)))
    return "".join(lines)


def stage_table(placed: Placed) -> dict[str, Any]:
    """The keys of a setup's stage."""
    station = placed.station
    table: dict[str, Any] = {"punch": station.punch, "die": station.die, "at": placed.at, "length": station.length}
    if station.die_length:
        table |= {"die_at": placed.die_at, "die_length": station.die_length}
    return table


@dataclass
class Trial:
    """A setup that was tried, with the places of its stations."""

    setup: Setup
    stand: Stand
    answer: Answer


class Trials:
    """Tries setups and made-up stations for one job and rack, each once."""

    def __init__(self, job: Job, rack: Rack, planner: Planner, machine: Table, tools_file: str = "tools.toml",
                 machine_file: str = "machine.toml") -> None:
        self.job, self.rack, self.planner, self.machine = job, rack, planner, machine
        self.tools_file, self.machine_file = tools_file, machine_file
        self.tried: dict[tuple[Setup, Stand], Answer] = {}
        self.made_up: dict[tuple[Setup, int | None], Answer] = {}
        self.never: list[frozenset[Station]] = []
        """Sets of stations none of whose subsets has a plan."""
        self.twins: dict[str, str] = {}
        """Of a turned punch, the punch whose pieces these are."""
        self._texts: dict[tuple[str, str], str] = {}

    # ---------------------------------------------------------------- the real rack on the real bed
    def is_hopeless(self, setup: Iterable[Station]) -> bool:
        """Whether it is known that these stations have no plan."""
        stations = frozenset(setup)
        return any(stations <= known for known in self.never)

    def real(self, setups: Iterable[Setup], *stands: Stand) -> list[Trial]:
        """Tries setups of the rack on the bed, up to 16 in one run, and gives those that have an answer now."""
        wanted = list(dict.fromkeys((setup, stand) for setup in setups for stand in stands or (MIDDLE,)))
        new = [(key, placed) for key in wanted if key not in self.tried and not (key[1] == MIDDLE and self.is_hopeless(key[0]))
               for placed in [place(self.job, *key)] if placed is not None]
        for start in range(0, len(new), MOST_SETUPS):
            batch = new[start:start + MOST_SETUPS]

            def text_of(places: list[int], batch: list[tuple[tuple[Setup, Stand], list[Placed]]] = batch) -> str:
                return setups_text([(f"s{at}", batch[at][1]) for at in places])
            answers = self.planner.setups(text_of, len(batch), self.tools_file, self.machine_file)
            for (key, _), answer in zip(batch, answers):
                self.tried[key] = answer if self._has_pieces(key[0], answer) else Answer("short")
        return [Trial(*key, self.tried[key]) for key in wanted if key in self.tried]

    def _has_pieces(self, setup: Setup, answer: Answer) -> bool:
        """Whether a punch and its turned twin together use no more pieces than there are."""
        used = Counter((self.twins.get(station.punch, station.punch), length)
                       for station, (punch, _) in zip(setup, answer.pieces) for length in punch)
        return not self.twins or all(count <= self.rack.stock("punch", name).get(length, 0)
                                     for (name, length), count in used.items())

    # ---------------------------------------------------------------- made-up stations on a bed without end
    def together(self, setup: Setup, move: int | None = None) -> Answer:
        """All these stations at once, which neither rack nor bed forbids; `move` is the price of a step between them.

        Where there is no plan, none of them alone and no pair of them has one.
        """
        key = (setup, move)
        if key not in self.made_up:
            placed = place_far(self.job, setup)
            if placed is None:
                return Answer("spent")
            answer = self.planner.plan(self._tools(setup), self._machine(placed, move))
            self.made_up[key] = answer
            if answer.kind == "none":
                self.never.append(frozenset(setup))
        return self.made_up[key]

    def relaxed(self, made_up: list[tuple[Table, Table, int]], uncovered: int, machine: Table | None = None) -> Answer:
        """Stations of made-up punches and dies of some lengths, with no load and moves for nothing."""
        stations = tuple(Station(f"p{at}", f"d{at}", length) for at, (_, _, length) in enumerate(made_up))
        placed = place_far(self.job, stations)
        if placed is None:
            return Answer("spent")
        tools = self._allow()
        for kind, place_ in (("punch", 0), ("die", 1)):
            for at, row in enumerate(made_up):
                tool = {**row[place_], "name": f"{kind[0]}{at}", "sections": [[row[2], 1]], "limit": 0}
                tools += f"[[{kind}]]\n" + ("body = []\n" if not tool["body"] else "") + toml(tool)
        return self.planner.plan(tools, self._machine(placed, 0, uncovered, machine))

    def bare(self) -> Answer:
        """No tool and no machine at all: the part's own flanges and the fingers alone."""
        punch = {"height": 1, "nose": 0, "body": []}
        die = {"height": 1, "v": 2, "least_flange": 0, "body": []}
        length = max(stroke.span for stroke in self.job.strokes)
        return self.relaxed([(punch, die, length)], self.job.uncovered, without_body(self.machine))

    def _allow(self) -> str:
        return "".join("[[allow]]\n" + toml(row) for row in self.job.tools.get("allow", []))

    def _tool(self, kind: str, name: str) -> str:
        key = (kind, name)
        if key not in self._texts:
            tool = (self.rack.punches if kind == "punch" else self.rack.dies)[name]
            text = toml({word: value for word, value in tool.items() if word != "sections"})
            self._texts[key] = text + ("body = []\n" if not tool["body"] else "")
        return self._texts[key]

    def _tools(self, setup: Setup) -> str:
        """The tools of some stations, with stock enough for these."""
        text = self._allow()
        for kind, names, lengths in (("punch", {s.punch for s in setup}, {s.length for s in setup}),
                                     ("die", {s.die for s in setup}, {s.stand for s in setup})):
            sections = [[length, 6] for length in sorted(lengths)]
            for name in sorted(names):
                text += f"[[{kind}]]\n{self._tool(kind, name)}sections = {sections}\n"
        return text + "".join("[[load]]\n" + toml(row) for row in self.job.tools.get("load", []))

    def _machine(self, placed: list[Placed], move: int | None, uncovered: int | None = None,
                 machine: Table | None = None) -> str:
        """The machine with a bed without end: what stands over the whole bed stands over all of it, and the rest is left out."""
        machine = dict(machine or self.machine)
        low, high = machine["bed"]
        for word in ("upper", "lower"):
            machine[word] = [[-FAR, FAR, *box[2:]] for box in machine.get(word, []) if box[0] <= low and high <= box[1]]
        machine |= {"bed": [-FAR, FAR], "frames": []}
        machine["cost"] = dict(machine["cost"])
        if move is not None:
            machine["cost"]["stage"] = move
        if uncovered is not None:
            machine["uncovered"] = uncovered
        gauge, cost = machine.pop("gauge"), machine.pop("cost")
        text = toml(machine) + "[gauge]\n" + toml(gauge) + "[cost]\n" + toml(cost)
        for one in placed:
            table = {key: value for key, value in stage_table(one).items() if key not in ("length", "die_length")}
            table["pieces"] = [one.station.length]
            if one.station.die_length:
                table["die_pieces"] = [one.station.die_length]
            text += "[[stage]]\n" + toml(table)
        return text


def without_body(machine: Table) -> Table:
    """The machine without its beam, its bed's body and its limit of force."""
    return {**machine, "upper": [], "lower": [], "force": 0}


def covering(kinds: Iterable[Kind], strokes: int) -> bool:
    """Whether the stations together reach every stroke."""
    return len(frozenset().union(*(kind.serves for kind in kinds))) == strokes
