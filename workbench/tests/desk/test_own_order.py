"""Own orders: by `order` and by `check` the same is said, of random orders of all examples; and each row of the table."""
from __future__ import annotations

import itertools
import os
import random
from collections.abc import Callable
from pathlib import Path

import pytest

from workbench.own_order import NoVerdict, Wanted, certificate_text, judge, leads_of, read_order
from workbench.pose import Job
from workbench.program import run_program
from workbench.tests.desk.helper import EXAMPLES, program

NAMES = sorted(path.name for path in EXAMPLES.iterdir() if (path / "plan.cert").exists())
ORDERS = int(os.environ.get("BRAKE_ORDERS", "26"))
FILES = ["part.toml", "tools.toml", "machine.toml"]


def job_of(name: str) -> Job:
    """The job of an example."""
    head = (EXAMPLES / name / "plan.cert").read_text().split("\nrow ")[0]
    return Job(head, (EXAMPLES / name / "blank.txt").read_text())


def checker(folder: Path) -> Callable[[str], str]:
    """Asks the program's `check`."""
    def check(text: str) -> str:
        (folder / "own.cert").write_text(text)
        return run_program(Path(program()), ["check", "own.cert"], folder=folder, seconds=60).printed.decode()
    return check


def random_orders() -> list[tuple[str, tuple[int, ...]]]:
    """Orders of examples, the same each time."""
    dice = random.Random(68)
    found = []
    for name in itertools.islice(itertools.cycle(NAMES), ORDERS):
        bends = list(range(1, len(job_of(name).faces)))
        dice.shuffle(bends)
        found.append((name, tuple(bends)))
    return found


def least_of(name: str) -> int | None:
    """What the plan of an example costs."""
    last = (EXAMPLES / name / "plan.txt").read_text().split()[-2:]
    return int(last[1]) if last[0] == "total" else None


@pytest.mark.parametrize("name, bends", random_orders())
def test_random_orders(name: str, bends: tuple[int, ...], tmp_path: Path) -> None:
    job, wanted = job_of(name), [Wanted(bend) for bend in bends]
    by_check = judge(job, wanted, checker(tmp_path))
    least = least_of(name)
    if by_check["all"]:
        assert by_check["checked"] and least is not None and by_check["total"] >= least
    words = ["order", *FILES, ",".join(str(bend) for bend in leads_of(job, wanted))]
    run = run_program(Path(program()), words, folder=EXAMPLES / name, seconds=60)
    if run.status == 2:
        return  # a program without the command
    by_order = read_order(job, run.printed.decode())
    for key in ("all", "total"):
        assert by_order[key] == by_check[key]
    assert len(by_order["strokes"]) == len(by_check["strokes"])
    for one, other in zip(by_order["strokes"], by_check["strokes"]):
        assert (one["bend"], one["with"], one["ok"]) == (other["bend"], other["with"], other["ok"])
        if not one["ok"]:
            assert {(way["back"], way["stage"], way["reason"][0]) for way in one["refused"]} == {
                (way["back"], way["stage"], way["reason"][0]) for way in other["refused"]}


def test_the_table_of_verdicts(tmp_path: Path) -> None:
    """What `check` says of certificates without rows; the desk reads these answers."""
    job, check = job_of("pan"), checker(tmp_path)
    lines = [line for line in (EXAMPLES / "pan/plan.cert").read_text().splitlines() if line.startswith("step ")]

    def said(steps: list[str], claim: int) -> list[int]:
        text = certificate_text(job, [], claim).removesuffix("end\n") + "".join(f"{step}\n" for step in steps) + "end\n"
        words = check(text).split()
        assert words[:2] == ["certificate", "refused"]
        return [int(word) for word in words[2:]]
    assert said(lines, 460)[0] in (4, 5, 6)
    assert said(lines, 461)[0] == 3
    assert said(lines[:2], 0)[0] == 8
    assert said(["step 1 C 0 3 3"], 0)[:3] == [2, 0, 3]
    assert said(["step 1 C 1 1 1"], 0)[:4] == [2, 0, 2, 1]


def test_an_answer_that_is_no_verdict() -> None:
    with pytest.raises(NoVerdict):
        judge(job_of("pan"), [Wanted(1)], lambda _text: "usage: brake\n")
    with pytest.raises(NoVerdict):
        read_order(job_of("pan"), "refused order 1\n")
