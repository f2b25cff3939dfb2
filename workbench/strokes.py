"""The boxes of each stroke of a plan, for pictures: as the program's command `boxes` prints them, or from poses."""
from __future__ import annotations

from typing import Any

from workbench.own_order import read_step
from workbench.pose import Job


def strokes_of(head: str, blank: str, printed_plan: str) -> dict[str, Any]:
    """The strokes of a plan that was printed, with the boxes of the part and of what stands around."""
    job = Job(head, blank)
    folded: set[int] = set()
    strokes = []
    for line in printed_plan.splitlines():
        words = line.split()
        if words[:1] == ["step"]:
            row = read_step(job, words, folded)
            row["fingers"] = finger_boxes(job, row["gauge"], row["at"])
            strokes.append(row)
    return {"strokes": strokes, "names": [face.name for face in job.faces], "thickness": job.thickness,
            "stages": [{"x0": stage.x0, "x1": stage.x1, "punch": stage.punch.name, "die": stage.die.name,
                        "nose": stage.punch.numbers[1], "v": stage.die.numbers[1]} for stage in job.stages]}


def finger_boxes(job: Job, gauge: int, places: list[int]) -> list[list[int]]:
    """The two fingers: x0, x1, y0, y1, z0, z1."""
    _, _, _, width, _, depth, above, below = job.gauge
    return [[x, x + width, gauge, gauge + depth, -job.thickness - below, above] for x in places]
