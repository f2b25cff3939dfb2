"""A wide search, to compare `brake propose` with: every single station and every pair of stations, by `brake setups`.

Of each punch and die it takes for each bend the shortest length of the stock that reaches it, for single stations also
the next longer one. It prunes nothing, and has all setups planned by the program.
"""
from __future__ import annotations

import subprocess
from dataclasses import dataclass
from itertools import combinations, product
from pathlib import Path

Sections = dict[int, int]


@dataclass
class Wide:
    """The least cost found, or None, the number of setups that were planned, and the setup."""

    cost: int | None = None
    setups: int = 0
    best: tuple[tuple[str, str, int, int], ...] = ()


def _sums(stock: Sections, top: int) -> list[int]:
    """All sums of up to twelve pieces, ascending."""
    reached = {0: 0}
    for length, count in stock.items():
        for base, pieces in list(reached.items()):
            for more in range(1, count + 1):
                total = base + more * length
                if total <= top and pieces + more <= 12 and reached.get(total, 99) > pieces + more:
                    reached[total] = pieces + more
    return sorted(total for total in reached if total)


def _shortest(sums: list[int], need: int, number: int) -> list[int]:
    return [total for total in sums if total >= need][:number]


class WideSearch:
    """The wide search for the files of a folder: part.toml, tools.toml, machine.toml."""

    def __init__(self, program: Path, folder: Path, tools: dict, machine: dict, own_dies: bool) -> None:
        self.program, self.folder, self.tools, self.machine, self.own_dies = program, folder, tools, machine, own_dies

    def _spans(self) -> list[int]:
        """The lengths of the bend lines; without gangs each is a stroke of its own."""
        done = subprocess.run([self.program, "blank", "part.toml", "tools.toml"], cwd=self.folder, capture_output=True,
                              text=True, check=True, timeout=60)
        lines = [list(map(int, line.split()[2:6])) for line in done.stdout.splitlines() if line.startswith("bend ")]
        return sorted({abs(x1 - x0) + abs(y1 - y0) for x0, y0, x1, y1 in lines}, reverse=True)

    def stations(self, next_ones: int) -> list[tuple[str, str, int, int]]:
        """Punch, die, length and length of the die, for all tools."""
        top = self.machine["bed"][1] - self.machine["bed"][0]
        needs = [max(1, span - 2 * self.machine["uncovered"]) for span in self._spans()]
        found: dict[tuple[str, str, int, int], None] = {}
        for punch, die in product(self.tools["punch"], self.tools["die"]):
            of_punch, of_die = dict(map(tuple, punch["sections"])), dict(map(tuple, die["sections"]))
            shared = _sums({length: min(count, of_die[length]) for length, count in of_punch.items() if length in of_die}, top)
            alone, under = _sums(of_punch, top), _sums(of_die, top)
            for need in needs:
                lengths = _shortest(shared, need, next_ones)
                found.update(dict.fromkeys((punch["name"], die["name"], length, length) for length in lengths))
                if self.own_dies:
                    for length in _shortest(alone, need, next_ones):
                        for stand in [s for s in _shortest(under, length, 1) if s != length or length not in shared]:
                            found[(punch["name"], die["name"], length, stand)] = None
        return list(found)

    def _plan(self, setups: list[list[tuple[str, str, int, int, int]]]) -> list[str]:
        text = ""
        for number, stages in enumerate(setups):
            text += f'[[setup]]\nname = "s{number}"\n'
            for punch, die, length, stand, at in stages:
                inset = (stand - length) // 2 // 1000 * 1000
                text += f'[[setup.stage]]\npunch = "{punch}"\ndie = "{die}"\nat = {at + inset}\nlength = {length}\n'
                if stand != length:
                    text += f"die_at = {at}\ndie_length = {stand}\n"
        (self.folder / "wide.toml").write_text(text)
        done = subprocess.run([self.program, "setups", "part.toml", "tools.toml", "machine.toml", "wide.toml", "wide"],
                              cwd=self.folder, capture_output=True, text=True, check=False, timeout=600)
        if done.returncode not in (0, 1):
            raise RuntimeError(f"{done.returncode} {done.stdout}")
        return [line.split()[3] for line in done.stdout.splitlines() if line.startswith("try ")]

    def _try(self, wide: Wide, setups: list[tuple[tuple[str, str, int, int], ...]]) -> None:
        low, high = self.machine["bed"]
        for start in range(0, len(setups), 16):
            placed, kept = [], []
            for setup in setups[start:start + 16]:
                room = high - low - sum(station[3] for station in setup)
                if room < 0:
                    continue
                gap, at, stages = room // (len(setup) + 1) // 1000 * 1000, low, []
                for punch, die, length, stand in setup:
                    at += gap
                    stages.append((punch, die, length, stand, at))
                    at += stand
                placed.append(stages)
                kept.append(setup)
            if not placed:
                continue
            for setup, said in zip(kept, self._plan(placed)):
                wide.setups += 1
                if said.isdigit() and (wide.cost is None or int(said) < wide.cost):
                    wide.cost, wide.best = int(said), setup

    def run(self, with_pairs: bool = True) -> Wide:
        """Tries the singles, of the two next lengths, and then the pairs of the shortest ones, one of which at least
        reaches the longest bend."""
        wide, longest = Wide(), max(self._spans()) - 2 * self.machine["uncovered"]
        self._try(wide, [(station,) for station in self.stations(2)])
        pairs = combinations(self.stations(1), 2) if with_pairs else ()
        self._try(wide, [pair for pair in pairs if max(station[2] for station in pair) >= longest])
        return wide
