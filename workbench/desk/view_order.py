"""The My order view: what the program says of an order of the user's own."""
from __future__ import annotations

from typing import Any

from workbench.desk.folder import MOST_FILE
from workbench.desk.job import head_of, put, texts_of, work_folder
from workbench.desk.refused import Refused
from workbench.desk.runs import Job as Work
from workbench.desk.server import Api, Desk
from workbench.own_order import NoVerdict, Wanted, judge, leads_of, read_order
from workbench.pose import Job

UNKNOWN = 2
"""The status of a command that the program doesn't have."""


def register(api: Api, desk: Desk) -> None:
    """The endpoints of this view."""
    @api.on("POST", "/api/order")
    def order(given: dict[str, Any]) -> dict[str, Any]:
        wanted = [Wanted(int(row["bend"]), row.get("back"), row.get("stage")) for row in given["order"]]
        texts = texts_of(desk, given)
        return {"id": desk.runs.begin("order", lambda work: judged(desk, texts, wanted, work)).key}


def judged(desk: Desk, texts: dict[str, bytes], wanted: list[Wanted], work: Work) -> dict[str, Any]:
    """What the program says of an order. Raises Refused."""
    head, blank, _ = head_of(desk, texts, work)
    job = Job(head, blank)
    if not wanted or any(not 0 < want.bend < len(job.faces) for want in wanted):
        raise Refused(409, "the part has no bend of this number")
    try:
        return ask_order(desk, texts, job, wanted, work) or ask_check(desk, job, wanted, work)
    except NoVerdict as fault:
        raise Refused(409, str(fault)) from None


def ask_order(desk: Desk, texts: dict[str, bytes], job: Job, wanted: list[Wanted],
              work: Work) -> dict[str, Any] | None:
    """By the command `order`; None where the program has none, or where a side or a stage is wanted by hand."""
    if any(want.back is not None or want.stage is not None for want in wanted):
        return None
    with work_folder(desk, texts) as place:
        leads = ",".join(str(bend) for bend in leads_of(job, wanted))
        run = desk.runs.call(["order", "part.toml", "tools.toml", "machine.toml", leads], place, 60, work)
    if run.status == UNKNOWN:
        return None
    return read_order(job, run.printed[:MOST_FILE].decode("utf-8", "replace"))


def ask_check(desk: Desk, job: Job, wanted: list[Wanted], work: Work) -> dict[str, Any]:
    """By the command `check` on certificates without rows."""
    with work_folder(desk, {}) as place:
        def check(text: str) -> str:
            if work.state != "running":
                raise Refused(409, "cancelled")
            put(place, "own.cert", text)
            return desk.runs.call(["check", "own.cert"], place, 20, work).printed.decode("utf-8", "replace")
        return judge(job, wanted, check)
