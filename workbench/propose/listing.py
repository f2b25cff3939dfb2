"""The setups file with its comments, and how it is stored: whole, or not at all."""
from __future__ import annotations

import os
import stat
import tempfile
from dataclasses import dataclass

import tomlkit

from .bed import Placed
from .errors import Stop
from .job import Job
from .search import Found
from .trials import Setup, stage_table

LONGEST_NAME = 24


@dataclass(frozen=True)
class Entry:
    """A setup of the file: its places on the bed, and its plan where it has one."""

    setup: Setup
    placed: list[Placed]
    found: Found | None


def name_of(place: int, setup: Setup) -> str:
    """A setup's name: its number, punches and lengths in millimetres; at most 24 visible characters."""
    parts = [f"{station.punch[:13]}:{station.length // 1000}" for station in setup]
    return f"{place}_{'+'.join(parts)}"[:LONGEST_NAME]


def _mm(length: int) -> str:
    whole, rest = divmod(length, 1000)
    return f"{whole}.{rest:03}".rstrip("0").rstrip(".") if rest else str(whole)


def _bends_of(job: Job, found: Found, stage: int) -> list[int]:
    return [bend for lead, at in found.steps if at == stage for bend in job.stroke_of[lead].bends]


def _comments(job: Job, entry: Entry) -> list[str]:
    found = entry.found
    if found is None:
        return ["No plan was found with it; it is here to be looked at."]
    pieces = found.number_of_pieces
    lines = [f"Cost {found.cost}, {len(found.setup)} station{'s' * (len(found.setup) > 1)} of {pieces} piece{'s' * (pieces > 1)}."]
    past = sorted({bend for lead, stage in found.steps for bend in job.stroke_of[lead].bends
                   if job.stroke_of[lead].span > found.setup[stage].length})
    if past:
        lines.append(f"Longer than their station, within what the machine leaves uncovered: bend {', '.join(map(str, past))}.")
    return lines


def file_text(job: Job, entries: list[Entry], head: list[str]) -> str:
    """The setups file as text."""
    document = tomlkit.document()
    for line in head:
        document.add(tomlkit.comment(line))
    setups = tomlkit.aot()
    for place, entry in enumerate(entries):
        setup = tomlkit.table()
        for line in _comments(job, entry):
            setup.add(tomlkit.comment(line))
        setup.add("name", name_of(place, entry.setup))
        stages = tomlkit.aot()
        for at, placed in enumerate(entry.placed):
            stage = tomlkit.table()
            station = placed.station
            words = f"{_mm(station.length)} mm of {station.punch} over {station.die}"
            if station.die_length:
                words += f", which is {_mm(station.die_length)} mm long"
            if entry.found is not None:
                words += f": bends in turn {' '.join(map(str, _bends_of(job, entry.found, at)))}"
            stage.add(tomlkit.comment(words))
            for key, value in stage_table(placed).items():
                stage.add(key, value)
            stages.append(stage)
        setup.add("stage", stages)
        setups.append(setup)
    document.add("setup", setups)
    return tomlkit.dumps(document)


def store(name: str, text: str) -> None:
    """Stores a file whole or not at all: written beside, flushed, renamed. What is no plain file of one name is written
    in place. Raises Stop, status 6."""
    try:
        state = os.lstat(name) if os.path.lexists(name) else None
        if state is not None and (not stat.S_ISREG(state.st_mode) or state.st_nlink > 1):
            with open(name, "w", encoding="utf-8") as file:
                file.write(text)
            return
        handle, beside = tempfile.mkstemp(prefix=".brake-", dir=os.path.dirname(name) or ".")
        try:
            with os.fdopen(handle, "w", encoding="utf-8") as file:
                file.write(text)
                file.flush()
                os.fsync(file.fileno())
            mask = os.umask(0)
            os.umask(mask)
            os.chmod(beside, state.st_mode & 0o777 if state is not None else 0o666 & ~mask)
            os.replace(beside, name)
        except BaseException:
            os.unlink(beside)
            raise
    except OSError as fault:
        raise Stop(f"{name} can't be stored: {fault.strerror}", 6) from fault
