"""`brake propose --all FOLDER`: each part of a catalogue's folder on each of its machines, on the cores of this computer.

The folder is laid out as the catalogue's: parts/, machines/ and tools.toml. What comes of it lies under out/proposed/:
MACHINE/PART.toml are the setups files, answers/ has a line of each pair with the key of its files, and table.txt and
table.csv show all. A run that was stopped is taken up where it was; where nothing has changed nothing is done.
"""
from __future__ import annotations

import csv
import fcntl
import hashlib
import io
import json
import os
import sys
import tempfile
from collections import Counter
from concurrent.futures import FIRST_COMPLETED, Future, ThreadPoolExecutor, wait
from dataclasses import asdict, dataclass, replace
from pathlib import Path

from .errors import Refused, Stop
from .listing import store
from .one import propose, store_proposal
from .reading import copy_inputs
from .words import Choices

OUT = "out/proposed"
COLUMNS = ("part", "machine", "state", "cost", "least", "stations", "pieces", "runs", "words")


@dataclass(frozen=True)
class Line:
    """A pair's line of the table, with the sum of all from which it follows."""

    key: str
    part: str
    machine: str
    state: str
    """planned, none, refused, or fault where the program failed."""
    cost: str = ""
    least: str = ""
    stations: str = ""
    pieces: str = ""
    runs: str = ""
    words: str = ""


def _sum(*data: bytes) -> str:
    whole = hashlib.sha256()
    for one in data:
        whole.update(hashlib.sha256(one).digest())
    return whole.hexdigest()


def _names(folder: Path) -> list[str]:
    """The TOML files of a folder and of those below, by their paths without the ending; hidden ones don't count."""
    found = []
    for path in folder.rglob("*.toml"):
        name = str(path.relative_to(folder))[:-len(".toml")]
        if not any(part.startswith(".") for part in path.relative_to(folder).parts):
            if not name.isprintable():
                raise Stop(f"a name below {folder} has a character that can't be printed: {name!r}", 6)
            found.append(name)
    return sorted(found)


@dataclass(frozen=True)
class Pair:
    """A part on a machine, in a catalogue's folder."""

    folder: Path
    part: str
    machine: str

    @property
    def files(self) -> tuple[str, str, str]:
        """Part, tools and machine file."""
        return (str(self.folder / f"parts/{self.part}.toml"), str(self.folder / "tools.toml"),
                str(self.folder / f"machines/{self.machine}.toml"))

    @property
    def out(self) -> Path:
        """The setups file."""
        return self.folder / OUT / self.machine / f"{self.part}.toml"

    @property
    def answer(self) -> Path:
        """Where its line is kept."""
        return self.folder / OUT / "answers" / self.machine / f"{self.part}.json"

    def kept(self, key: str) -> Line | None:
        """The line that is kept, where it is of the same files and the setups file is there."""
        try:
            line = Line(**json.loads(self.answer.read_text("utf-8")))
        except (OSError, ValueError, TypeError):
            return None
        return line if line.key == key and (line.state != "planned" or self.out.is_file()) else None


def _line(program: Path, pair: Pair, key: str, choices: Choices) -> Line:
    """Proposes for one pair and stores its setups file."""
    with tempfile.TemporaryDirectory(prefix="brake-propose-") as name:
        try:
            copy_inputs(pair.files, str(pair.out), Path(name))
            proposal = propose(program, Path(name), choices, lambda text: None)
            store_proposal(proposal, str(pair.out))
        except Refused as refused:
            return Line(key, pair.part, pair.machine, "refused", words="; ".join(refused.lines))
        except Stop as fault:
            return Line(key, pair.part, pair.machine, "fault", words=fault.text)
    runs = str(proposal.planner.runs)
    found = proposal.entries[0].found if proposal.entries else None
    if found is None:
        return Line(key, pair.part, pair.machine, "none", runs=runs, words="; ".join(proposal.words))
    return Line(key, pair.part, pair.machine, "planned", str(found.cost), str(proposal.outcome.least or ""),
                str(len(found.setup)), str(found.number_of_pieces), runs)


def _work(program: Path, pair: Pair, key: str, choices: Choices) -> Line:
    pair.out.parent.mkdir(parents=True, exist_ok=True)
    pair.answer.parent.mkdir(parents=True, exist_ok=True)
    if pair.out.exists():
        pair.out.unlink()  # of other files than those that stand here
    line = _line(program, pair, key, choices)
    if line.state != "fault":
        store(str(pair.answer), json.dumps(asdict(line)) + "\n")
    return line


def _aligned(rows: list[tuple[str, ...]]) -> str:
    widths = [max(len(row[at]) for row in rows) for at in range(len(COLUMNS))]
    return "".join("  ".join(cell.rjust(width) if 3 <= at <= 7 else cell.ljust(width)
                             for at, (cell, width) in enumerate(zip(row, widths))).rstrip() + "\n" for row in rows)


def _write_table(folder: Path, lines: list[Line]) -> str:
    """Writes the table as text and as CSV, and gives its summary."""
    rows = [tuple(str(getattr(line, column)) for column in COLUMNS) for line in lines]
    text = io.StringIO()
    csv.writer(text, lineterminator="\n").writerows([COLUMNS, *rows])
    store(str(folder / OUT / "table.csv"), text.getvalue())
    counts = Counter(line.state for line in lines)
    summary = f"{len(rows)} pairs" + "".join(f", {counts[state]} {state}" for state in ("planned", "none", "refused", "fault")
                                             if counts[state])
    store(str(folder / OUT / "table.txt"), f"{summary}\n\n{_aligned([COLUMNS, *rows])}")
    return summary


def _todo(folder: Path, program: Path, choices: Choices) -> tuple[list[tuple[Pair, str]], list[Line]]:
    """The pairs whose answer isn't there, with the keys of their files, and the lines that are kept."""
    for name in ("parts", "machines"):
        if not (folder / name).is_dir():
            raise Stop(f"{folder} has no folder {name}", 6)
    todo, kept = [], []
    try:
        rest = _sum(program.read_bytes(), (folder / "tools.toml").read_bytes(), repr(replace(choices, quiet=True)).encode())
        machines = {name: (folder / f"machines/{name}.toml").read_bytes() for name in _names(folder / "machines")}
        for part in _names(folder / "parts"):
            own = (folder / f"parts/{part}.toml").read_bytes()
            for machine, text in machines.items():
                pair, key = Pair(folder, part, machine), _sum(own, text, rest.encode())
                line = pair.kept(key)
                kept += [line] if line is not None else []
                todo += [(pair, key)] if line is None else []
    except OSError as fault:
        raise Stop(f"{fault.filename} can't be read: {fault.strerror}", 6) from fault
    return todo, kept


def propose_all(program: Path, name: str, choices: Choices) -> int:
    """Proposes for every part of a folder on every machine. Status 0 where each pair has a plan or a refusal or none;
    6 where one has a fault."""
    folder = Path(name)
    if not folder.is_dir():
        raise Stop(f"there is no folder {name}", 6)
    (folder / OUT).mkdir(parents=True, exist_ok=True)
    with open(folder / OUT / "lock", "w", encoding="utf-8") as lock:
        try:
            fcntl.flock(lock, fcntl.LOCK_EX | fcntl.LOCK_NB)
        except OSError as fault:
            raise Stop(f"another run is under way in {name}", 70) from fault
        todo, lines = _todo(folder, program, choices)
        told = f"{len(todo) + len(lines)} pairs, of which {len(lines)} have their answer"
        lines += _run(program, todo, choices, told)
        lines.sort(key=lambda line: (line.part, line.machine))
        print(f"{_write_table(folder, lines)}; the table is {folder / OUT / 'table.txt'}")
    return 6 if any(line.state == "fault" for line in lines) else 0


def _run(program: Path, todo: list[tuple[Pair, str]], choices: Choices, told: str) -> list[Line]:
    """The pairs side by side, a run of the program for each core."""
    def say(text: str) -> None:
        if not choices.quiet:
            print(f"propose: {text}", file=sys.stderr, flush=True)
    say(told)
    lines: list[Line] = []
    pool = ThreadPoolExecutor(os.cpu_count() or 1)
    try:
        open_: set[Future[Line]] = {pool.submit(_work, program, pair, key, choices) for pair, key in todo}
        while open_:
            done, open_ = wait(open_, return_when=FIRST_COMPLETED)
            lines += [one.result() for one in done]
            say(f"{len(lines)} of {len(todo)} pairs")
    finally:
        pool.shutdown(wait=True, cancel_futures=True)
    return lines
