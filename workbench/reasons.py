"""Why a stroke is refused, in words of the shop, and as a picture. The reasons are the program's own numbers."""
from __future__ import annotations

from typing import Any

from workbench.pose import Job
from workbench.refusals import show_length

Reason = tuple[int, ...]
TOO_LONG, TOO_SHORT, FRAME, UPPER, NOSE, LOWER, ITSELF, NO_GAUGE, FORCE = range(1, 10)
FIRST_CORNER = 12


def say_part(job: Job, number: int) -> str:
    """A box of the part by its number: a face, or the corner of a folded bend."""
    if number <= FIRST_CORNER:
        return f"face {job.faces[number].name}"
    return f"the bend of face {job.faces[number - FIRST_CORNER].name}"


def say_tool(job: Job, group: str, number: int) -> str:
    """A box that stands around, by the number that a reason gives."""
    name = next((box.name for box in job.around() if (box.group, box.number) == (group, number)), "?")
    if name == "beam":
        return f"the machine's {group} beam"
    return f"{'punch' if group == 'upper' else 'die'} {name}"


def say_reason(job: Job, reason: Reason, stage: int) -> str:
    """A reason at a stage, in words."""
    kind, here = reason[0], job.stages[stage]
    if kind == TOO_LONG:
        long = show_length(here.x1 - here.x0)
        return f"the bend is longer than station {stage} covers ({long} and what may stand out)"
    if kind == TOO_SHORT:
        return f"a flange is shorter than the {show_length(here.die.numbers[2])} that die {here.die.name} wants"
    if kind == FRAME:
        return f"{say_part(job, reason[1])} would stand in a side frame"
    if kind in (UPPER, LOWER):
        group = "upper" if kind == UPPER else "lower"
        return f"{say_part(job, reason[1])} would hit {say_tool(job, group, reason[3])}"
    if kind == NOSE:
        return f"{say_part(job, reason[1])} would hit the nose of punch {job.stages[reason[3]].punch.name}"
    if kind == ITSELF:
        return f"{say_part(job, reason[1])} and {say_part(job, reason[3])} would hit one another"
    if kind == FORCE:
        return "the stroke needs more force than the tools or the machine bear"
    return say_no_gauge(job)


def say_no_gauge(job: Job) -> str:
    """That the fingers find no edge, and what they want."""
    near, far, inset, finger, gap = job.gauge[:5]
    return (f"the two fingers find no flat edge behind: they want {show_length(inset + finger)} of edge each, "
            f"{show_length(gap)} apart, {show_length(near)} to {show_length(far)} behind the bend")


def picture_of(job: Job, folded: set[int], group: list[int], back: str, stage: int,
               reason: Reason = (0,)) -> dict[str, Any]:
    """What the page draws of a stroke from the side, in micrometres; what a reason names is marked."""
    here, kind = job.stages[stage], reason[0]
    hit: dict[str, Any] = {"box": None, "tool": None, "other": None}
    if kind in (FRAME, UPPER, NOSE, LOWER, ITSELF):
        hit["box"] = reason[1]
    if kind in (UPPER, LOWER):
        hit["tool"] = ["upper" if kind == UPPER else "lower", reason[3]]
    if kind == ITSELF:
        hit["other"] = reason[3]
    return {"stage": [here.x0, here.x1], "nose": here.punch.numbers[1], "v": here.die.numbers[1], "t": job.thickness,
            "tools": [list(box[:8]) for box in job.around()], "hit": hit,
            "boxes": [list(box) for box in job.pose(folded, group, back, stage).boxes]}
