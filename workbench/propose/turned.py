"""Punches the other way round: entries of a copy of the tools file, where the rack has no such entry of its own."""
from __future__ import annotations

import os
from dataclasses import dataclass
from itertools import count
from typing import Callable

import tomlkit

from .job import Table
from .search import Search
from .stations import Rack, stand_alike, turned
from .trials import Trials

MARK = "_turned"
MOST_PUNCHES = 32
"""Of a tools file."""
LONGEST_NAME = 24
HEAD = "# A copy of the tools file with punches the other way round, made by 'brake propose'.\n"


@dataclass(frozen=True)
class TurnedTools:
    """A copy of the tools file with turned punches."""

    text: str

    @staticmethod
    def file_beside(out: str) -> str:
        """The copy's name beside OUT: `x.toml` has `x.tools.toml`, or with a number where another file has that name."""
        stem, ending = os.path.splitext(out)
        for number in count(1):
            name = f"{stem}.tools{number if number > 1 else ''}{ending or '.toml'}"
            if not os.path.lexists(name) or _is_own(name):
                return name
        raise AssertionError


def _is_own(name: str) -> bool:
    """Whether a file is a copy that an earlier run made."""
    try:
        with open(name, encoding="utf-8", errors="replace") as file:
            return file.read(len(HEAD)) == HEAD and not os.path.islink(name)
    except OSError:
        return False


def _turned_punches(punches: list[Table], every: list[Table]) -> dict[str, Table]:
    """Of each punch that no entry has the other way round, the turned one, by the name of the punch."""
    found: dict[str, Table] = {}
    names = {punch["name"] for punch in every}
    for punch in punches[:MOST_PUNCHES - len(every)]:
        other = turned(punch, punch["name"][:LONGEST_NAME - len(MARK)] + MARK)
        if other["name"] not in names and not any(stand_alike(other, one) for one in [*every, *found.values()]):
            found[punch["name"]] = other
            names.add(other["name"])
    return found


def with_turned(search: Search, told: Callable[[str], None]) -> tuple[Search, TurnedTools] | None:
    """Searches once more with the punches turned. None where there is none to be turned, or that gives no plan either."""
    rack, job, trials = search.rack, search.job, search.trials
    punches = list(rack.punches.values())
    new = _turned_punches(punches, job.tools.get("punch", []))
    if not new:
        return None
    text = HEAD + tomlkit.dumps({**job.tools, "punch": [*job.tools["punch"], *new.values()]})
    name = trials.planner.write("turned_tools.toml", text)
    wider = Rack(job, [*punches, *new.values()], list(rack.dies.values()), rack.own_dies, True)
    again = Trials(job, wider, trials.planner, trials.machine, name, trials.machine_file)
    again.never, again.made_up, again.tried = trials.never, trials.made_up, trials.tried
    again.twins = {other["name"]: own for own, other in new.items()}
    second = Search(again, wider, told, thorough=False)
    return (second, TurnedTools(text)) if second.run().found else None
