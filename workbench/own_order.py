"""An order of one's own: what the program says of it, stroke by stroke.

By the program's command `order` where it has one. Else, and where a side or a stage is wanted by hand, by `check`: a
certificate of the job with the own strokes and no rows is refused by the proved checker in a way that tells all:

    2 K 2 REASON   stroke K (from 0) is refused, and by what
    2 K 3          the pair of faces that is named is no stop
    2 K 4          another bend leads its group
    8              all strokes that are given are allowed, and bends are left
    3              all are allowed, and the cost isn't the claim
    6, 4, 5        the whole order is allowed and costs the claim
"""
from __future__ import annotations

import itertools
from collections.abc import Callable
from dataclasses import dataclass, field
from typing import Any

from workbench.pose import UNIT, Job, turn_between
from workbench.reasons import Reason, picture_of, say_reason

MARK = "certificate refused "
VERDICTS = (0, 2, 3, 4, 5, 6, 8)
WHOLE = (0, 4, 5, 6)
SIDES = "PC"
NO_GAUGE = 8
SIDE_WORDS = {"parent": "P", "child": "C"}


class NoVerdict(Exception):
    """The program gave no verdict on an order; the text is what it printed."""


@dataclass(frozen=True)
class Wanted:
    """A stroke that is wanted: its bend, and by hand the side (P or C) at the back and the stage."""

    bend: int
    back: str | None = None
    stage: int | None = None


@dataclass(frozen=True)
class Step:
    """A stroke as a certificate has it: the lead, the side at the back, the stage and the fingers' faces."""

    bend: int
    back: str
    stage: int
    left: int
    right: int


@dataclass
class Stroke:
    """A stroke of an own order: its ways that are allowed, or why each of its ways is refused."""

    bend: int
    mates: list[int]
    folded: set[int]
    group: list[int]
    ways: list[Step] = field(default_factory=list)
    refused: list[tuple[str, int, Reason]] = field(default_factory=list)


def certificate_text(job: Job, steps: list[Step], claim: int) -> str:
    """A certificate of the job with these strokes and no rows."""
    rows = [f"step {step.bend} {step.back} {step.stage} {step.left} {step.right}" for step in steps]
    return "\n".join([*job.lines, f"claim {claim}", *rows, "end", ""])


def verdict(job: Job, steps: list[Step], claim: int, check: Callable[[str], str]) -> list[int]:
    """The checker's numbers; [0] where it accepts. Raises NoVerdict."""
    said = check(certificate_text(job, steps, claim)).strip()
    if said.startswith("optimal "):
        return [0]
    numbers = [int(word) for word in said.removeprefix(MARK).split()] if said.startswith(MARK) else []
    if not numbers or numbers[0] not in VERDICTS:
        raise NoVerdict(f"the checker gave no verdict on this order: {said[:80]}")
    return numbers


def judge(job: Job, wanted: list[Wanted], check: Callable[[str], str]) -> dict[str, Any]:
    """An own order as `check` judges it, for the page. Raises NoVerdict."""
    folded: set[int] = set()
    steps: list[Step] = []
    strokes: list[Stroke] = []
    for want in wanted:
        if want.bend in folded:
            continue
        group = job.group(folded, want.bend)
        stroke = Stroke(group[0], group[1:], set(folded), group)
        strokes.append(stroke)
        try_ways(job, stroke, want, steps, check)
        if not stroke.ways:
            break
        steps.append(stroke.ways[0])
        folded |= set(group)
    return sum_up(job, strokes, len(folded) == len(job.faces) - 1, check)


def try_ways(job: Job, stroke: Stroke, want: Wanted, steps: list[Step], check: Callable[[str], str]) -> None:
    """Asks the checker for each side and stage of a stroke."""
    for back, stage in itertools.product(SIDES, range(len(job.stages))):
        if want.back not in (None, back) or want.stage not in (None, stage):
            continue
        found, reason = try_gauges(job, stroke, back, stage, steps, check)
        if found is not None:
            stroke.ways.append(found)
        else:
            stroke.refused.append((back, stage, reason))


def try_gauges(job: Job, stroke: Stroke, back: str, stage: int, steps: list[Step],
               check: Callable[[str], str]) -> tuple[Step | None, Reason]:
    """Asks for the faces that may be stops, likely ones first; other reasons come with the first pair."""
    for left, right in likely_pairs(job, stroke, back, stage):
        step = Step(stroke.bend, back, stage, left, right)
        said = verdict(job, [*steps, step], 0, check)
        if said[0] != 2 or said[1] != len(steps):
            return step, (0,)
        if said[2] == 4:
            raise NoVerdict(f"bend {stroke.bend} isn't the first of its group")
        if said[2] == 2:
            return None, tuple(said[3:])
    return None, (NO_GAUGE,)


def likely_pairs(job: Job, stroke: Stroke, back: str, stage: int) -> list[tuple[int, int]]:
    """Pairs of faces at the back: one alone first, then those whose far sides lie in one line, then the others."""
    far = {box.face: box.y1 for box in job.pose(stroke.folded, stroke.group, back, stage).boxes if box.half == "B"}
    pairs = [(face, face) for face in far] + list(itertools.permutations(far, 2))
    near = 2 * abs(job.half_deduction - job.thickness) + 4
    return sorted(pairs, key=lambda pair: (abs(far[pair[0]] - far[pair[1]]) > near, pair[0] != pair[1]))


@dataclass(frozen=True)
class Walk:
    """The cheapest way so far to an attitude at a stage."""

    cost: int
    steps: tuple[Step, ...]
    told: tuple[tuple[str, int], ...]
    """Each stroke's turn and cost."""


def cheapest(job: Job, strokes: list[Stroke]) -> Walk:
    """The cheapest choice of the strokes' allowed ways, over attitudes and stages."""
    walks = {(UNIT, 0): Walk(0, (), ())}
    for stroke in strokes:
        further: dict[Any, Walk] = {}
        for (attitude, stage), walk in walks.items():
            for step in stroke.ways:
                new = job.pose(stroke.folded, stroke.group, step.back, step.stage).attitude
                turn = turn_between(new, attitude)
                cost = job.cost["stroke"] + (job.cost[turn] if turn != "none" else 0)
                cost += job.cost["stage"] * abs(stage - step.stage) if stroke.folded else 0
                key = (new, step.stage)
                if key not in further or walk.cost + cost < further[key].cost:
                    further[key] = Walk(walk.cost + cost, (*walk.steps, step), (*walk.told, (turn, cost)))
        walks = further
    return min(walks.values(), key=lambda walk: walk.cost)


def sum_up(job: Job, strokes: list[Stroke], is_whole: bool, check: Callable[[str], str]) -> dict[str, Any]:
    """The order for the page; the checker confirms the cost of a whole one."""
    walk = cheapest(job, [stroke for stroke in strokes if stroke.ways])
    rows = [stroke_data(job, stroke) for stroke in strokes]
    for row, stroke, step, (turn, cost) in zip(rows, strokes, walk.steps, walk.told):
        row.update(back=step.back, stage=step.stage, turn=turn, cost=cost, left=step.left, right=step.right,
                   picture=picture_of(job, stroke.folded, stroke.group, step.back, step.stage))
    sure = is_whole and verdict(job, list(walk.steps), walk.cost, check)[0] in WHOLE
    return {"strokes": rows, "total": walk.cost, "all": is_whole, "checked": sure, "by": "check"}


def stroke_data(job: Job, stroke: Stroke) -> dict[str, Any]:
    """A stroke for the page, with each way that is refused."""
    refused = [{"back": back, "stage": stage, "reason": list(reason), "words": say_reason(job, reason, stage),
                "picture": picture_of(job, stroke.folded, stroke.group, back, stage, reason)}
               for back, stage, reason in stroke.refused]
    return {"bend": stroke.bend, "with": stroke.mates, "ok": bool(stroke.ways), "refused": refused,
            "ways": [[step.back, step.stage] for step in stroke.ways]}


def leads_of(job: Job, wanted: list[Wanted]) -> list[int]:
    """The leads of the strokes that are wanted, as the command `order` takes them."""
    folded: set[int] = set()
    leads = []
    for want in wanted:
        if want.bend not in folded:
            group = job.group(folded, want.bend)
            leads.append(group[0])
            folded |= set(group)
    return leads


def read_order(job: Job, printed: str) -> dict[str, Any]:
    """What the command `order` printed, for the page. Raises NoVerdict."""
    folded: set[int] = set()
    strokes: list[dict[str, Any]] = []
    total: int | None = None
    for line in printed.splitlines():
        words = line.split()
        if words[:1] == ["step"]:
            strokes.append(read_step(job, words, folded))
        elif words[:1] == ["total"]:
            total = int(words[1])
        elif words[:1] == ["stuck"]:
            group = job.group(folded, int(words[3]))
            stroke = Stroke(group[0], group[1:], set(folded), group)
            strokes.append(stroke_data(job, stroke))
        elif words[:1] == ["back"] and strokes and not strokes[-1]["ok"]:
            reason = tuple(int(word) for word in words[5:])
            stroke.refused = [(SIDE_WORDS[words[1]], int(words[3]), reason)]
            strokes[-1]["refused"] += stroke_data(job, stroke)["refused"]
    if total is None:
        raise NoVerdict(f"the program gave no verdict on this order: {printed[:80]}")
    is_whole = len(folded) == len(job.faces) - 1
    return {"strokes": strokes, "total": total, "all": is_whole, "checked": True, "by": "order"}


def read_step(job: Job, words: list[str], folded: set[int]) -> dict[str, Any]:
    """A line `step ..` for the page; its bends are added to the folded ones."""
    rest = words[5:]  # behind the flange's name, which may be any word

    def behind(word: str, more: int = 1) -> str:
        return rest[rest.index(word) + more]
    bend, back, stage = int(words[3]), SIDE_WORDS[behind("back")], int(behind("stage"))
    group = job.group(folded, bend)
    row = {"bend": bend, "with": group[1:], "ok": True, "refused": [], "ways": [[back, stage]], "back": back,
           "stage": stage, "turn": behind("turn"), "cost": int(behind("cost")), "gauge": int(behind("gauge")),
           "left": int(behind("fingers")), "right": int(behind("fingers", 3)),
           "at": [int(behind("fingers", 2)), int(behind("fingers", 4))],
           "picture": picture_of(job, set(folded), group, back, stage)}
    folded |= set(group)
    return row
