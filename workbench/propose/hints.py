"""Keys of the machine file that would have given a plan."""
from __future__ import annotations

import copy
from typing import Callable

import tomlkit

from .errors import Refused, TriesUsed
from .job import Table
from .search import Search
from .trials import Trials

FINE = 10
"""How often a piece is halved in a machine file that wants parts with flanges on several sides."""
MOST_RUNS = 7
"""Runs of the program for one changed machine file."""


def _changes(machine: Table) -> list[dict[str, int]]:
    """What may be changed, the least first."""
    single: list[dict[str, int]] = []
    if machine.get("fine", 0) < FINE:
        single.append({"fine": FINE})
    if not machine["gauge"].get("upright", 0):
        single.append({"upright": 1})
    if machine["gauge"].get("front", 0):
        single.append({"front": 0})
    both = {key: value for change in single for key, value in change.items()}
    return single + ([both] if len(single) > 1 else [])


def _changed(machine: Table, change: dict[str, int]) -> Table:
    new = copy.deepcopy({key: value for key, value in machine.items() if key != "stage"})
    for key, value in change.items():
        (new if key == "fine" else new["gauge"])[key] = value
    return new


def keys_that_help(search: Search, told: Callable[[str], None]) -> list[str]:
    """A line for each change of the machine file with which there is a plan, and at the first of them it ends."""
    planner, lines = search.trials.planner, []
    tries = planner.tries
    for number, change in enumerate(_changes(search.trials.machine)):
        planner.tries = min(tries, planner.runs + MOST_RUNS)
        machine = _changed(search.trials.machine, change)
        name = planner.write(f"changed_{number}.toml", tomlkit.dumps(machine))
        trials = Trials(search.job, search.rack, planner, machine, search.trials.tools_file, name)
        try:
            outcome = Search(trials, search.rack, told, thorough=False).run()
        except (Refused, TriesUsed):
            continue
        finally:
            planner.tries = tries
        if outcome.found:
            said = ", ".join(f"{key} = {value}" for key, value in change.items())
            lines.append(f"with {said}: {outcome.best}")
            break
    return lines
