#!/usr/bin/env python3
"""Writes the benchmark jobs, which are fixed: nothing in them is random.

    bench/jobs.py FOLDER      a folder for each job, with part.toml, tools.toml, machine.toml; of b10_s4 setups.toml too

The digits of a name are the numbers of bends and of stages. README.md beside this file says what each job is for.
"""
from __future__ import annotations

import sys
from dataclasses import dataclass
from pathlib import Path

sys.path.insert(0, str(Path(__file__).resolve().parent))
from inputs import Face, Part, Stage, Tab, machine, setups, tabs, tools  # noqa: E402

FILES = ("part.toml", "tools.toml", "machine.toml")


@dataclass(frozen=True)
class Job:
    """A job's name, its part, and the texts of its other files; `setups` is empty where it has none."""

    name: str
    part: Part
    tools: str
    machine: str
    setups: str = ""

    def write(self, folder: Path) -> None:
        """Stores its files in a folder, which is made where it isn't there."""
        folder.mkdir(parents=True, exist_ok=True)
        for file, text in zip(FILES, (self.part.text(), self.tools, self.machine), strict=True):
            (folder / file).write_text(text)
        if self.setups:
            (folder / "setups.toml").write_text(self.setups)


def stages(count: int, *pieces: int) -> list[Stage]:
    """Equal stages of a blade over the narrow die."""
    return [Stage(pieces or (60000,))] * count


def gooseneck(*pieces: int, die: str = "D16") -> Stage:
    """A stage of the gooseneck."""
    return Stage(pieces, "GOOSE", die)


def wide(*pieces: int) -> Stage:
    """A stage of the blade over the wider die."""
    return Stage(pieces, "P100", "D12")


FOUR_TABS = [Tab("N", 20000, "up"), Tab("E", 20000, "up"), Tab("S", 20000, "up"), Tab("W", 20000, "down")]
FIVE_TABS = [*FOUR_TABS, Tab("N", 320000, "down")]
ROUND = [("N", 40000, "up"), ("N", 240000, "down"), ("E", 140000, "up"),
         ("S", 40000, "down"), ("S", 240000, "up"), ("W", 140000, "down")]
SIX_TABS = [Tab(*place) for place in ROUND]
# two long walls over against each other, each in the way of the other
WALLS = (Face("A", "b", "N", 220000, 60000, 180000, "up"), Face("B", "b", "S", 220000, 60000, 180000, "up"))
BESIDE_WALLS = [Tab("N", 20000, "up"), Tab("N", 420000, "down"), Tab("S", 20000, "down"), Tab("S", 420000, "up")]


def pan() -> Part:
    """A pan of four walls, two of which carry lips that point outwards."""
    walls = [Face(side.lower(), "pan", side, 2000, width, 25000, "up")
             for side, width in (("N", 86000), ("S", 86000), ("E", 56000), ("W", 56000))]
    lips = [Face(f"{on}l", on, "N", 0, 86000, 22000, "down") for on in ("n", "s")]
    return Part("pan", 90000, 60000, (*walls, *lips))


def strip() -> Part:
    """A strip of thirteen faces, up and down in turn: each box depends on all bends between it and the stroke."""
    faces = [Face(f"f{i}", f"f{i - 1}", "N", 0, 60000, 25000, "up" if i % 2 else "down") for i in range(1, 13)]
    return Part("f0", 60000, 60000, tuple(faces))


def eight_setups() -> str:
    """Setups from one stage to six: one without a choice of pieces, one without a plan."""
    tab, neck, wider = ("P100", "D16", 60000), ("GOOSE", "D16", 60000), ("P100", "D12", 60000)
    return setups({
        "one": [tab],
        "two": [tab, neck],
        "narrow": [("P100", "D16", 40000), ("GOOSE", "D16", 45000)],
        "odd": [tab, ("P100", "D16", 12345)],
        "three": [tab, neck, ("P100", "D16", 110000)],
        "four": [tab, neck, tab, ("P100", "D16", 50000)],
        "wide": [wider, ("GOOSE", "D12", 60000), ("P100", "D12", 50000), neck],
        "six": [tab, neck, wider, ("GOOSE", "D12", 130000), tab, ("P100", "D16", 50000)],
    })


def small_jobs() -> list[Job]:
    """Jobs of up to eleven bends that have a plan."""
    two_pieces = Stage((30000, 30000))
    reach = [Stage((60000,)), gooseneck(60000), wide(60000), two_pieces, Stage((40000,)), Stage((50000,))]
    return [
        Job("b04_s1", tabs(120000, 100000, FOUR_TABS[:2]), tools(), machine(stages(1))),
        Job("b06_s2", pan(), tools(), machine([Stage((90000,)), Stage((56000,))])),
        Job("b08_s4", tabs(200000, 200000, FOUR_TABS), tools(),
            machine([Stage((60000,)), gooseneck(60000), wide(50000), two_pieces])),
        Job("b10_s4", tabs(400000, 400000, FIVE_TABS), tools(),
            machine([Stage((60000,)), gooseneck(60000), two_pieces, Stage((50000,))]), eight_setups()),
        Job("b11_s6", tabs(400000, 400000, [*SIX_TABS[:5], Tab(*ROUND[5], has_lip=False)]), tools(),
            machine(reach, uncovered=6000)),
    ]


def large_jobs() -> list[Job]:
    """Jobs of twelve bends that have a plan: nearly all keys settled, nearly all pruned, gangs, loads."""
    mixed = [Stage((60000,)), gooseneck(60000), Stage((60000,)), Stage((30000, 30000)), Stage((40000, 20000)),
             Stage((50000,))]
    all_up = [Tab(side, at, "up") for side, at, _ in ROUND]
    in_rows = [*all_up[:5], Tab("W", 140000, "down")]
    long_and_short = [Stage((300000,)), Stage((60000,)), gooseneck(200000, 60000), Stage((30000, 30000)), wide(300000),
                      Stage((50000,))]
    loaded = [Stage((60000,)), gooseneck(60000), gooseneck(60000, die="D12"), Stage((30000, 30000)), wide(40000, 20000),
              Stage((50000,))]
    return [
        Job("b12_s6", tabs(400000, 400000, SIX_TABS), tools(), machine(mixed)),
        Job("p12_s6", tabs(400000, 400000, all_up), tools(), machine(stages(6), costs=(100, 0, 0, 0, 0, 40))),
        Job("g12_s6", tabs(400000, 400000, in_rows), tools(), machine(long_and_short, keys="gang = 1\n")),
        Job("l12_s6", tabs(400000, 400000, [Tab(*ROUND[0], width=70000), *SIX_TABS[1:]]),
            tools(300, {8000: 400, 12000: 250}), machine(loaded, keys="force = 24000\n")),
    ]


def jobs_without_plan() -> list[Job]:
    """Jobs of which no order of bends is a plan."""
    six_tabs = [*BESIDE_WALLS, Tab("E", 50000, "up")]
    # twelve tabs that are gauged at the far edge of a flat tab over against them alone: the last can't be gauged
    twelve = [Tab(side, at, "down" if (3 * k + j) % 2 else "up", has_lip=False)
              for k, side in enumerate("NESW") for j, at in enumerate((20000, 170000, 320000))]
    long_stages = [Stage((300000,)), *stages(2), Stage((300000,)), *stages(2)]
    return [
        Job("n10_s4", tabs(500000, 160000, BESIDE_WALLS, WALLS), tools(), machine(stages(4))),
        Job("n12_s6", tabs(500000, 160000, six_tabs, WALLS), tools(), machine(stages(6))),
        Job("m12_s6", tabs(400000, 400000, twelve), tools(), machine(stages(6), near=450000)),
        Job("h12_s6", tabs(500000, 160000, six_tabs, WALLS), tools(), machine(long_stages, keys="gang = 1\n")),
    ]


def plan_jobs() -> list[Job]:
    """The jobs of `plan` and `check`."""
    return [*small_jobs(), *large_jobs(), *jobs_without_plan()]


def all_jobs() -> list[Job]:
    """These, and the one of `why` alone."""
    set_up = [Stage((60000,)), gooseneck(60000), wide(60000), Stage((60000,)), gooseneck(60000, die="D12"),
              Stage((60000,))]
    return [*plan_jobs(), Job("c12_s6", strip(), tools(), machine(set_up))]


def main(words: list[str]) -> int:
    """Writes all jobs below the folder that the one word names."""
    if len(words) != 1:
        print((__doc__ or "").strip(), file=sys.stderr)
        return 2
    for job in all_jobs():
        job.write(Path(words[0]) / job.name)
    return 0


if __name__ == "__main__":
    sys.exit(main(sys.argv[1:]))
