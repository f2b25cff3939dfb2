"""Proposes setups for one part, prints them and stores them."""
from __future__ import annotations

import sys
import tempfile
import time
from dataclasses import dataclass
from pathlib import Path
from typing import Callable

from . import hints
from .bed import place
from .errors import Refused, Stop, TriesUsed
from .job import Job, Table
from .listing import Entry, file_text, name_of, store
from .obstacles import furthest_of, lacking, words_of
from .planner import Planner
from .reading import copy_inputs, explain, read_job
from .search import Outcome, Search
from .stations import Rack
from .trials import Setup, Trials
from .turned import TurnedTools, with_turned
from .words import Choices

MOST_ALIKE = 2
"""Kept setups of the same punches and dies."""
MOST_WITHOUT_PLAN = 4
"""Setups that are stored where none has a plan."""


@dataclass
class Proposal:
    """What a run comes to."""

    job: Job
    rack: Rack
    outcome: Outcome
    entries: list[Entry]
    planner: Planner
    words: list[str]
    """What stands in the way, and what would help."""
    turned: TurnedTools | None = None

    @property
    def cost(self) -> int | None:
        """The least cost, None where there is no plan."""
        return self.entries[0].found.cost if self.entries and self.entries[0].found else None


class Progress:
    """One line on standard error for each run of the program, with the time that all runs left would take."""

    def __init__(self, quiet: bool) -> None:
        self.quiet, self.start, self.planner = quiet, time.monotonic(), None

    def __call__(self, text: str) -> None:
        if self.quiet or self.planner is None:
            return
        runs, tries = self.planner.runs, self.planner.tries
        left = (time.monotonic() - self.start) / max(runs, 1) * (tries - runs)
        print(f"propose: run {runs} of at most {tries}, at most {left:.0f} s left: {text}", file=sys.stderr, flush=True)


def _named(kind: str, tools: Table, names: tuple[str, ...]) -> list[Table]:
    have = {tool["name"]: tool for tool in tools.get(kind, [])}
    for name in names:
        if name not in have:
            raise Stop(f"the tools file has no {kind} '{name}'", 2)
    return [have[name] for name in names] if names else list(have.values())


def _kept(job: Job, search: Search, keep: int) -> list[Entry]:
    entries: list[Entry] = []
    alike: dict[tuple[tuple[str, str], ...], int] = {}
    for found in sorted(search.outcome.found.values(), key=search.order_of):
        tools = tuple(sorted((station.punch, station.die) for station in found.setup))
        if len({stage for _, stage in found.steps}) < len(found.setup) or alike.get(tools, 0) == MOST_ALIKE:
            continue
        alike[tools] = alike.get(tools, 0) + 1
        entries.append(Entry(found.setup, place(job, found.setup, found.stand) or [], found))
        if len(entries) == keep:
            break
    return entries


def _widest(search: Search, most: int) -> list[Setup]:
    """Setups to be looked at where none has a plan: those that were tried, else the first kinds of station."""
    tried = [setup for (setup, _), answer in search.trials.tried.items() if answer.kind == "none"]
    if tried:
        return tried[:most]
    kinds = search.outcome.kinds or [kind for tools in search.rack.classes()[:1] for kind in search.rack.kinds(tools)]
    widest = sorted(kinds, key=lambda kind: -len(kind.serves))[:most]
    return [(kind.station,) for kind in widest]


def kept_back(tries: int) -> int:
    """Runs that the search leaves, so that it can be said what stands in the way."""
    return min(MOST_WITHOUT_PLAN, tries // 4)


def propose(program: Path, folder: Path, choices: Choices, progress: Callable[[str], None]) -> Proposal:
    """Proposes setups for the copied files of a folder. Raises Refused and Stop."""
    planner = Planner(program, folder, choices.tries, choices.budget, progress)
    if isinstance(progress, Progress):
        progress.planner = planner
    job, own_dies = read_job(planner)
    punches, dies = _named("punch", job.tools, choices.punches), _named("die", job.tools, choices.dies)
    rack = Rack(job, punches, dies, own_dies, bool(choices.dies))
    search = Search(Trials(job, rack, planner, job.machine), rack, progress)
    planner.tries -= kept_back(choices.tries)
    outcome = search.run()
    turned = None
    if not outcome.found and outcome.bare is not None and job.strokes and planner.left > 0:
        again = with_turned(search, progress)
        if again is not None:
            search, turned = again
    planner.tries = choices.tries
    entries = _kept(job, search, choices.keep)
    words: list[str] = []
    if not entries:
        words, entries = _without_plan(search, choices, progress)
    return Proposal(job, search.rack, outcome if turned is None else search.outcome, entries, planner, words, turned)


def _without_plan(search: Search, choices: Choices, progress: Callable[[str], None]) -> tuple[list[str], list[Entry]]:
    job, planner = search.job, search.trials.planner
    words = [f"no plan found: {search.outcome.ended}"]
    if not job.strokes:
        return words, []
    for kind, tools in (("punch", search.rack.punches), ("die", search.rack.dies)):
        if not tools:
            words.append(f"the rack has no {kind}")
    words += lacking(job, search.rack)
    entries = []
    try:
        found = furthest_of(search.trials, _widest(search, min(choices.keep, MOST_WITHOUT_PLAN)), planner.folder)
        if found:
            words += words_of(found[0], job)
        entries = [Entry(one.setup, place(job, one.setup) or [], None) for one in found]
    except TriesUsed:
        pass
    words += hints.keys_that_help(search, progress)
    return words, entries


def _head(proposal: Proposal, beside: str) -> list[str]:
    number = proposal.job.bends
    head = [f"Setups that 'brake propose' made of the rack for a part of {number} bend{'s' * (number != 1)}.",
            "'brake setups' picks their pieces, plans each and proves which of them is the cheapest."]
    if proposal.cost is None:
        head.append("None of these has a plan; 'brake sheet' draws what stands in the way.")
    if beside:
        head.append(f"Punches are turned: give 'brake setups' the tools file {_printable(Path(beside).name)}.")
    return head


def _printable(text: str) -> str:
    return "".join(c if c.isprintable() else "?" for c in text)


def store_proposal(proposal: Proposal, out: str) -> str:
    """Stores the setups file, after the copy of the tools file that it needs where punches are turned; gives the name of
    that copy, empty where there is none."""
    beside = ""
    if proposal.turned is not None:
        beside = proposal.turned.file_beside(out)
        store(beside, proposal.turned.text)
    if proposal.entries:
        store(out, file_text(proposal.job, proposal.entries, _head(proposal, beside)))
    return beside


def report(proposal: Proposal, out: str) -> int:
    """Stores what was proposed and prints it. Gives the exit status."""
    planned = proposal.cost is not None
    beside = store_proposal(proposal, out)
    for place_, entry in enumerate(proposal.entries):
        if entry.found is not None:
            print(f"propose {place_} {name_of(place_, entry.setup)} {entry.found.cost} {len(entry.setup)} "
                  f"{entry.found.number_of_pieces}")
    print(f"tries {proposal.planner.runs}")
    if planned and proposal.outcome.least is not None:
        print(f"least {proposal.outcome.least}")
    if beside:
        print(f"tools {_printable(beside)}")
    for line in proposal.words:
        print(line)
    return 0 if planned else 1


def propose_one(program: Path, files: tuple[str, str, str, str], choices: Choices) -> int:
    """`brake propose PART TOOLS MACHINE OUT`."""
    out = files[3]
    with tempfile.TemporaryDirectory(prefix="brake-propose-") as name:
        folder = Path(name)
        try:
            copy_inputs(files[:3], out, folder)
            proposal = propose(program, folder, choices, Progress(choices.quiet))
        except Refused as refused:
            explain(refused, files[:3], folder)
            raise
        return report(proposal, out)
