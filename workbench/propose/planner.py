"""Runs of the program, counted, and what they answer."""
from __future__ import annotations

import os
import subprocess
from dataclasses import dataclass
from pathlib import Path
from typing import Callable

from ..program import Run, run_program
from .errors import Refused, Stop, TriesUsed

Pieces = tuple[tuple[int, ...], tuple[int, ...]]
"""The lengths of which a stage's punch is made, and those of its die where these are its own."""
LIMIT = 600.0
"""Seconds after which a run of the program is given up."""


@dataclass(frozen=True)
class Answer:
    """What the program said of a setup."""

    kind: str
    """planned, none, short (the stock doesn't make its stations), spent (the budget) or refused."""
    cost: int = 0
    steps: tuple[tuple[int, int], ...] = ()
    """A bend and its stage for each stroke, in order."""
    pieces: tuple[Pieces, ...] = ()
    """Of each stage."""

    @property
    def is_plan(self) -> bool:
        """Whether there is a plan."""
        return self.kind == "planned"

    @property
    def used(self) -> tuple[int, ...]:
        """The stages of the plan."""
        return tuple(sorted({stage for _, stage in self.steps}))


def _order_steps(lines: list[str]) -> tuple[tuple[int, int], ...]:
    """Bend and stage of each step of an order sheet, whose last fifteen words have fixed places."""
    steps = [line.split() for line in lines if line.startswith("step ")]
    return tuple((int(words[3]), int(words[-12])) for words in steps)


def _read_head(cert: Path) -> tuple[tuple[tuple[int, int], ...], tuple[Pieces, ...]]:
    """The steps and the pieces of a certificate, which stand before its rows."""
    steps: list[tuple[int, int]] = []
    pieces: list[Pieces] = []
    with open(cert, encoding="ascii", errors="replace") as file:
        for line in file:
            words = line.split()
            if words[0] == "pieces":
                pieces.append((tuple(map(int, words[1:])), ()))
            elif words[0] == "die_stand":
                pieces[-1] = (pieces[-1][0], tuple(map(int, words[3:])))
            elif words[0] == "step":
                steps.append((int(words[1]), int(words[3])))
            elif words[0] in ("row", "end"):
                break
    return tuple(steps), tuple(pieces)


class Planner:
    """Runs the program on files in a folder of its own. Every run that plans counts as one try."""

    def __init__(self, program: Path, folder: Path, tries: int, budget: int, told: Callable[[str], None]) -> None:
        self.program, self.folder, self.tries, self.budget, self.told = program, folder, tries, budget, told
        self.runs = self.spent = self.planned = 0

    @property
    def left(self) -> int:
        """Runs that may still be made."""
        return self.tries - self.runs

    def run(self, words: list[str]) -> Run:
        """One run that isn't counted. Raises Stop where the program fails."""
        try:
            done = run_program(self.program, words, folder=self.folder, seconds=LIMIT)
        except OSError as fault:
            raise Stop(f"the program {self.program} can't be run: {fault.strerror}", 70) from fault
        except subprocess.TimeoutExpired as fault:
            raise Stop(f"the program took more than {LIMIT:.0f} s on one of the setups", 6) from fault
        if done.status not in (0, 1, 2, 3, 4):
            how = f"was ended by signal {-done.status}" if done.status < 0 else f"ended with {done.status}"
            raise Stop(f"the program {how} on one of the setups", 6 if done.status != 7 else 7)
        return done

    def write(self, name: str, text: str) -> str:
        """Writes a file of the folder, and gives its name."""
        (self.folder / name).write_text(text, encoding="utf-8")
        return name

    def _count(self, setups: int) -> None:
        if self.left <= 0:
            raise TriesUsed
        self.runs += 1
        self.planned += setups

    def plan(self, tools: str, machine: str) -> Answer:
        """Plans the part with these tools on this machine, within the budget."""
        self._count(1)
        words = ["plan", "part.toml", self.write("run_tools.toml", tools), self.write("run_machine.toml", machine),
                 "run.cert", "--budget", str(self.budget)]
        done = self.run(words)
        if done.status == 0:
            return Answer("planned", int(done.lines[-1].split()[1]), _order_steps(done.lines))
        self.spent += done.status == 4
        return Answer({1: "none", 4: "spent"}.get(done.status, "refused"))

    def setups(self, text_of: Callable[[list[int]], str], count: int, tools: str = "tools.toml",
               machine: str = "machine.toml") -> list[Answer]:
        """Has the program pick the pieces of up to 16 setups and plan each. `text_of` writes those whose places are given.

        A setup that the program refuses is left out, and the others are asked again.
        """
        places, answers = list(range(count)), [Answer("refused")] * count
        while places:
            self._count(len(places))
            done = self.run(["setups", "part.toml", tools, machine, self.write("run_setups.toml", text_of(places)), "run"])
            if done.status in (0, 1):
                for place, answer in zip(places, self._tried(done.lines)):
                    answers[place] = answer
                break
            words = done.lines[-1].split() if done.lines else []
            if words[:3] != ["refused", "setups", "6"]:
                raise Refused(["setups", "PART", "TOOLS", "MACHINE", "OUT"], done.lines)
            del places[int(words[3])]
        return answers

    def _tried(self, lines: list[str]) -> list[Answer]:
        answers = []
        for line in lines:
            words = line.split()
            if words[0] != "try":
                continue
            if words[3].isdigit():
                steps, pieces = _read_head(self.folder / f"run.{words[1]}")
                answers.append(Answer("planned", int(words[3]), steps, pieces))
            else:
                answers.append(Answer(words[3]))
        return answers


def launcher() -> str:
    """The launcher, by which refusals are put in words; empty where there is none."""
    path = os.environ.get("BRAKE_LAUNCHER", "")
    return path if path and os.access(path, os.X_OK) else ""
