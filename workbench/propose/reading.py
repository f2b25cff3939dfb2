"""Reads the three files as the program judges them, into a folder of the run's own."""
from __future__ import annotations

import os
import subprocess
import tomllib
from pathlib import Path

from .errors import Refused, Stop
from .job import Job, read_blank
from .planner import Planner, launcher

LONGEST = 1_048_577
"""Bytes of an input file that are read: one more than the program takes."""
COPIES = ("part.toml", "tools.toml", "machine.toml")
PROBE = """[[setup]]
name = "probe"
[[setup.stage]]
punch = "?"
die = "?"
at = 0
length = 1
die_at = 0
die_length = 1
"""
"""A setup of tools that no file has. A program that doesn't know a die's own range refuses its keys first."""


def copy_inputs(files: tuple[str, ...], out: str, folder: Path) -> None:
    """Copies part, tools and machine file. Raises Stop where one can't be read or OUT is one of them."""
    for name, copy in zip(files, COPIES):
        try:
            if os.path.exists(out) and os.path.samefile(name, out):
                raise Stop(f"{out} is the same file as {name}, which would be lost: nothing was done. "
                           "Give another name for what is to be stored", 70)
            with open(name, "rb") as file:
                (folder / copy).write_bytes(file.read(LONGEST))
        except OSError as fault:
            raise Stop(f"{name} can't be read: {fault.strerror}", 6) from fault
    parent = os.path.dirname(out) or "."
    if not os.path.isdir(parent) or os.path.isdir(out):
        raise Stop(f"{out} can't be stored: " + (f"there is no folder {parent}" if not os.path.isdir(parent) else "it is a folder"), 6)


def read_job(planner: Planner) -> tuple[Job, bool]:
    """The job of the copied files, and whether the program knows a die's own range. Raises Refused."""
    probe = planner.write("probe.toml", PROBE)
    done = planner.run(["setups", *COPIES, probe, "probe"])
    words = done.lines[-1].split() if done.lines else []
    if done.status != 3 or not words:
        raise Stop("the program has no command 'setups'", 70)
    if words[:2] == ["refused", "long"] or words[1:2] in (["part"], ["tools"], ["machine"]):
        raise Refused(["plan", *COPIES, "run.cert"], done.lines)
    blank = planner.run(["blank", *COPIES[:2]])
    if blank.status != 0:
        raise Refused(["blank", *COPIES[:2]], blank.lines)
    try:
        part, tools, machine = (tomllib.loads((planner.folder / copy).read_text("utf-8-sig")) for copy in COPIES)
    except ValueError as fault:
        raise Stop(f"the program takes a file that Python's TOML reader doesn't: {fault}", 6) from fault
    return Job(part, tools, machine, read_blank(blank.lines)), words[2] != "3"


def explain(refused: Refused, files: tuple[str, ...], folder: Path) -> None:
    """Has the launcher say on standard error what the refusal's numbers mean."""
    path = launcher()
    if not path:
        return
    named = {copy: os.path.abspath(name) for copy, name in zip(COPIES, files) if os.path.isfile(name)}
    words = [named.get(word, word) for word in refused.words]
    try:
        subprocess.run([path, *words], cwd=folder, stdin=subprocess.DEVNULL, stdout=subprocess.DEVNULL, check=False,
                       timeout=60)
    except (OSError, subprocess.TimeoutExpired):
        pass
