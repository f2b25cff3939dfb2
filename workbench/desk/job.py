"""A job's three files, and runs of the program on them in a folder of their own."""
from __future__ import annotations

import os
import tempfile
from collections.abc import Iterator
from contextlib import contextmanager
from typing import Any

from workbench.desk.folder import tag_of
from workbench.desk.refused import Refused
from workbench.desk.runs import Job
from workbench.desk.server import Desk
from workbench.program import Run
from workbench.refusals import find_place, plain, say_in_words

FILES = ("part", "tools", "machine")
PLAN = ["plan", "part.toml", "tools.toml", "machine.toml", "plan.cert"]
BLANK = ["blank", "part.toml", "tools.toml"]
KEPT_HEADS = 20
MOST_HEAD = 1 << 20


@contextmanager
def work_folder(desk: Desk, texts: dict[str, bytes]) -> Iterator[str]:
    """A folder for one run, with these files by kind; their names are the desk's own, so that none is an option."""
    with tempfile.TemporaryDirectory(dir=desk.runs.scratch) as place:
        for kind, data in texts.items():
            put(place, f"{kind}.toml", data)
        yield place


def put(place: str, name: str, data: bytes | str) -> None:
    """Writes a file of a work folder."""
    with open(os.path.join(place, name), "wb") as file:
        file.write(data if isinstance(data, bytes) else data.encode())


def texts_of(desk: Desk, given: dict[str, Any], kinds: tuple[str, ...] = FILES) -> dict[str, bytes]:
    """The bytes of the files that a request names. Raises Refused."""
    return {kind: desk.folder.read(given[kind]) for kind in kinds}


def words_of(desk: Desk, run: Run, words: list[str], place: str, given: dict[str, Any]) -> list[str]:
    """What the launcher says of a run, with the user's names of the files and in millimetres."""
    names = {f"{kind}.toml": str(given.get(kind) or f"{kind}.toml") for kind in FILES}
    printed = run.printed.decode("utf-8", "replace")
    said = [] if run.status == 2 else say_in_words(desk.runs.program, words, run.status, printed, place)
    late = run.said.decode("utf-8", "replace").splitlines()
    return [plain(line, names) for line in [*said, *late]]


def answer_of(desk: Desk, run: Run, words: list[str], place: str, given: dict[str, Any]) -> dict[str, Any]:
    """A run as the page takes it: its status, what it printed, the launcher's words and the place of a refusal."""
    printed = run.printed.decode("utf-8", "replace")
    found = find_place(printed) if run.status == 3 else None
    return {"status": run.status, "out": printed, "at": found.as_data() if found else None,
            "words": words_of(desk, run, words, place, given)}


def head_of(desk: Desk, texts: dict[str, bytes], job: Job) -> tuple[str, str, str]:
    """A job's certificate up to its rows, its blank, and its plan as printed; planned once for a state of the files.

    Raises Refused where the program refuses the files.
    """
    key = tag_of(b"\0".join(texts[kind] for kind in FILES))
    if key not in desk.heads:
        with work_folder(desk, texts) as place:
            run = desk.runs.call(PLAN, place, 600, job)
            if run.status not in (0, 1):
                said = words_of(desk, run, PLAN, place, {})
                raise Refused(409, (said or run.lines or ["the program gave no answer"])[-1])
            with open(os.path.join(place, "plan.cert"), encoding="utf-8") as file:
                head = file.read(MOST_HEAD).split("\nrow ")[0] + "\n"
            blank = desk.runs.call(BLANK, place, 20, job)
        while len(desk.heads) >= KEPT_HEADS:
            desk.heads.pop(next(iter(desk.heads)), None)
        desk.heads[key] = head, blank.printed.decode("utf-8", "replace"), run.printed.decode("utf-8", "replace")
    found: tuple[str, str, str] = desk.heads[key]
    return found
