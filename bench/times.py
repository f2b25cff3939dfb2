#!/usr/bin/env python3
"""Times a built program on the benchmark jobs or on texts of certificates, alone or beside another program.

    bench/times.py PROGRAM [OTHER] [--runs N] [--commands NAME,..] [--jobs NAME,..] [--limit S]
    bench/times.py PROGRAM [OTHER] --check FILE..       `check` of each of these files

Prints a row for each run: its command and job, the exit status, the last line that was printed, the bytes that were
stored, the least time of N runs (5) in milliseconds, from the start of the process to its end, and the greatest memory
in KiB of a run of its own. With OTHER the two take turns, and its figures, the ratio, and whether answers, statuses
and stored files are equal stand beside; OTHER is any program with the same commands. Files are stored in a temporary
folder, on a RAM disk where there is one with room. Memory needs GNU time: sudo apt-get install time. The exit status
is 0 where all is equal or there is no OTHER, 1 where something differs or takes longer than S seconds (900), 2 for
faulty words.
"""
from __future__ import annotations

import argparse
import hashlib
import math
import os
import shutil
import subprocess
import sys
import tempfile
import time
from dataclasses import dataclass, field
from pathlib import Path

sys.path.insert(0, str(Path(__file__).resolve().parent))
from jobs import FILES, all_jobs, plan_jobs  # noqa: E402

GNU_TIME = Path("/usr/bin/time")
RAM_DISK = Path("/dev/shm")
ROOM = 1 << 30
COMMANDS = ("plan", "check", "why", "setups", "settle", "merge", "prove")


@dataclass(frozen=True)
class Case:
    """A run to be timed: what it is called, its job, its words, and the runs that make what it reads."""

    name: str
    job: str
    words: tuple[str, ...]
    before: tuple[tuple[str, ...], ...] = ()

    @property
    def command(self) -> str:
        """The command, its first word."""
        return self.words[0]


@dataclass
class Figures:
    """What came of a case with one program: status, last line, bytes stored, least seconds, all answers."""

    status: int | None = None
    line: str = ""
    stored: int = 0
    seconds: float = math.inf
    memory: int | None = None
    answers: set[str] = field(default_factory=set)


def settle(out: str, low: int, high: int, *base: str) -> tuple[str, ...]:
    """The words of `settle` of these sets, over a base where one is named."""
    return ("settle", *FILES, out, str(low), str(high), *base)


def cases() -> list[Case]:
    """All runs, in the order in which they are timed; what a run stores is OUT, and of `plan` and `check` out.cert."""
    plan = ("plan", *FILES, "out.cert")
    found = [Case(f"plan {job.name}", job.name, plan) for job in plan_jobs()]
    found += [Case(f"check {job.name}", job.name, ("check", "in.cert"), (("plan", *FILES, "in.cert"),))
              for job in plan_jobs()]
    found += [Case(f"why {name}", name, ("why", *FILES)) for name in ("b12_s6", "l12_s6", "c12_s6")]
    upper, lower = settle("upper", 2048, 4094), settle("lower", 0, 2047)
    wide_upper, wide_lower = settle("upper", 1400, 4094), settle("lower", 0, 2700)
    merge = ("merge", "lower", "upper", "out.table")
    return [
        *found,
        Case("setups b10_s4", "b10_s4", ("setups", *FILES, "setups.toml", "out.cert")),
        Case("settle b10_s4, all sets", "b10_s4", settle("out.table", 0, 1022)),
        Case("settle b12_s6, all sets", "b12_s6", settle("out.table", 0, 4094)),
        Case("settle b12_s6, a quarter over the upper half", "b12_s6", settle("out.table", 1024, 2047, "upper"),
             (upper,)),
        Case("merge b12_s6, both halves", "b12_s6", merge, (lower, upper)),
        Case("merge b12_s6, ranges that overlap", "b12_s6", merge, (wide_lower, wide_upper)),
        Case("prove b12_s6, all sets", "b12_s6", ("prove", "all"), (settle("all", 0, 4094),)),
    ]


def checked_files(files: list[Path]) -> list[Case]:
    """`check` of each of these files."""
    return [Case(f"check {file.name}", "", ("check", str(file.resolve()))) for file in files]


def stored_in(folder: Path) -> tuple[str, int]:
    """The checksums of what was stored, by name, as one, and its bytes."""
    total, size = hashlib.sha256(), 0
    for path in sorted(folder.glob("out.*")):
        with path.open("rb") as file:
            total.update(path.name.encode() + b"\0" + hashlib.file_digest(file, "sha256").digest())
        size += path.stat().st_size
    return total.hexdigest(), size


def remove_stored(folder: Path) -> None:
    """Takes away what a run stored."""
    for path in folder.glob("out.*"):
        path.unlink()


def run_once(program: Path, words: tuple[str, ...], folder: Path, limit: float) -> tuple[int | None, bytes, float]:
    """Status (None where it was ended), standard output and seconds of one run in a folder."""
    start = time.perf_counter()
    try:
        done = subprocess.run([os.fspath(program), *words], cwd=folder, stdin=subprocess.DEVNULL, timeout=limit,
                              stdout=subprocess.PIPE, stderr=subprocess.DEVNULL, check=False)
    except subprocess.TimeoutExpired:
        return None, b"", math.inf
    return done.returncode, done.stdout, time.perf_counter() - start


def memory_of(program: Path, words: tuple[str, ...], folder: Path, limit: float) -> int | None:
    """The greatest size in KiB of a run of its own, or None where it isn't known."""
    if not GNU_TIME.exists():
        return None
    note = folder / "memory"
    run_once(GNU_TIME, ("-q", "-f", "%M", "-o", note.name, os.fspath(program), *words), folder, limit)
    text = note.read_text().split() if note.exists() else []
    return int(text[-1]) if text and text[-1].isdigit() else None


def take(figures: Figures, program: Path, case: Case, folder: Path, limit: float) -> None:
    """One run more: keeps the least time, and all different answers."""
    remove_stored(folder)
    status, printed, seconds = run_once(program, case.words, folder, limit)
    checksum, size = stored_in(folder)
    lines = printed.decode(errors="replace").splitlines()
    figures.status, figures.stored, figures.line = status, size, lines[-1] if lines else ""
    figures.seconds = min(figures.seconds, seconds)
    figures.answers.add(f"{status} {hashlib.sha256(printed).hexdigest()} {checksum}")


def time_case(programs: list[Path], case: Case, folder: Path, runs: int, limit: float) -> list[Figures]:
    """The figures of a case with each program, which take turns."""
    for words in case.before:
        run_once(programs[-1], words, folder, limit)
    found = [Figures() for _ in programs]
    for turn in range(runs):
        order = range(len(programs)) if turn % 2 == 0 else reversed(range(len(programs)))
        for i in order:
            take(found[i], programs[i], case, folder, limit)
    for figures, program in zip(found, programs, strict=True):
        remove_stored(folder)
        figures.memory = memory_of(program, case.words, folder, limit)
    remove_stored(folder)
    return found


def is_equal(found: list[Figures]) -> bool:
    """Whether all runs ended, and all answered and stored the same."""
    answers = set().union(*(figures.answers for figures in found))
    return len(answers) == 1 and all(figures.status is not None for figures in found)


def row(case: Case, found: list[Figures]) -> str:
    """The row of a case."""
    first = found[0]
    status = "ended" if first.status is None else str(first.status)
    text = f"{case.name:46} {status:>5}  {first.line[:30]:30} {first.stored:>10}"
    for figures in found:
        text += f" {figures.seconds * 1000:>9.1f} ms {figures.memory or '-':>8} KiB"
    if len(found) > 1:
        ratio = first.seconds / found[1].seconds
        text += f" {ratio:>6.2f}  {'equal' if is_equal(found) else 'DIFFER'}"
    return text


def wanted(given: argparse.Namespace) -> list[Case]:
    """The cases that the words ask for."""
    if given.check:
        return checked_files(given.check)
    commands = set(given.commands.split(",")) if given.commands else set(COMMANDS)
    names = set(given.jobs.split(",")) if given.jobs else {job.name for job in all_jobs()}
    return [case for case in cases() if case.command in commands and case.job in names]


def read_words(words: list[str]) -> argparse.Namespace:
    """The words; ends with the usage text and status 2 where they are faulty."""
    reader = argparse.ArgumentParser(prog="bench/times.py", description=__doc__,
                                     formatter_class=argparse.RawDescriptionHelpFormatter)
    reader.add_argument("program", metavar="PROGRAM", type=Path)
    reader.add_argument("other", metavar="OTHER", type=Path, nargs="?")
    reader.add_argument("--runs", type=int, default=5, metavar="N")
    reader.add_argument("--commands", default="", metavar="NAME,..")
    reader.add_argument("--jobs", default="", metavar="NAME,..")
    reader.add_argument("--limit", type=float, default=900, metavar="S")
    reader.add_argument("--check", nargs="+", type=Path, default=[], metavar="FILE")
    given = reader.parse_args(words)
    if given.runs < 1:
        reader.error("--runs is at least 1")
    for program in (given.program, given.other):
        if program is not None and not os.access(program, os.X_OK):
            reader.error(f"{program} isn't a program")
    for names, known in ((given.commands, COMMANDS), (given.jobs, [job.name for job in all_jobs()])):
        unknown = sorted(set(names.split(",")) - {"", *known})
        if unknown:
            reader.error(f"there is no {', '.join(unknown)}; there are {', '.join(known)}")
    return given


def room_for_tables() -> str | None:
    """The RAM disk, where there is one with room for two tables; else the usual temporary folder."""
    is_there = RAM_DISK.is_dir() and os.access(RAM_DISK, os.W_OK)
    return str(RAM_DISK) if is_there and shutil.disk_usage(RAM_DISK).free >= ROOM else None


def main(words: list[str]) -> int:
    """Times what the words ask for, and prints it row by row."""
    given = read_words(words)
    programs = [program.resolve() for program in (given.program, given.other) if program is not None]
    jobs = {job.name: job for job in all_jobs()}
    all_equal = True
    for case in wanted(given):
        with tempfile.TemporaryDirectory(prefix="brake-bench-", dir=room_for_tables()) as name:
            folder = Path(name)
            if case.job:
                jobs[case.job].write(folder)
            found = time_case(programs, case, folder, given.runs, given.limit)
        print(row(case, found), flush=True)
        all_equal &= is_equal(found)
    return 0 if all_equal else 1


if __name__ == "__main__":
    sys.exit(main(sys.argv[1:]))
