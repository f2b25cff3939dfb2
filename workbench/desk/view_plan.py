"""The Plan view: plans, their sheets and certificates, proposals of stations, and the boxes of each stroke."""
from __future__ import annotations

import os
from typing import Any

from workbench.desk.folder import MOST_CERTIFICATE
from workbench.desk.job import PLAN, answer_of, head_of, texts_of, work_folder
from workbench.desk.refused import Refused
from workbench.desk.runs import Job
from workbench.desk.server import Api, Desk
from workbench.desk.view_part import bench_words, is_offered
from workbench.files import change_toml
from workbench.strokes import strokes_of

MOST_SECONDS = 3600
SHEET_SECONDS = 120
MOST_SHOWN = 4 << 20


def register(api: Api, desk: Desk) -> None:
    """The endpoints of this view."""
    @api.on("POST", "/api/plan")
    def plan(given: dict[str, Any]) -> dict[str, Any]:
        texts, seconds = texts_of(desk, given), min(MOST_SECONDS, int(given.get("seconds", 600)))
        return {"id": desk.runs.begin("plan", lambda job: planned(desk, texts, given, job, seconds)).key}

    @api.on("POST", "/api/propose")
    def propose(given: dict[str, Any]) -> dict[str, Any]:
        if not is_offered("propose"):
            raise Refused(409, "this brake has no command propose")
        texts = texts_of(desk, given)
        return {"id": desk.runs.begin("propose", lambda job: proposed(desk, texts, given, job)).key}

    @api.on("POST", "/api/motion")
    def motion(given: dict[str, Any]) -> dict[str, Any]:
        texts = texts_of(desk, given)

        def work(job: Job) -> dict[str, Any]:
            head, blank, printed = head_of(desk, texts, job)
            return strokes_of(head, blank, printed)
        return {"id": desk.runs.begin("motion", work).key}

    @api.on("GET", "/api/run/<key>")
    def run(_given: dict[str, Any], key: str) -> dict[str, Any]:
        return desk.runs.find(key).as_data()

    @api.on("DELETE", "/api/run/<key>")
    def end(_given: dict[str, Any], key: str) -> dict[str, Any]:
        desk.runs.cancel(desk.runs.find(key))
        return {}


def planned(desk: Desk, texts: dict[str, bytes], given: dict[str, Any], job: Job, seconds: int) -> dict[str, Any]:
    """A plan, or that there is none, with its sheet; the certificate is kept beside the part where that is wanted."""
    with work_folder(desk, texts) as place:
        run = desk.runs.call(PLAN, place, seconds, job)
        answer = {**answer_of(desk, run, PLAN, place, given), "sheet": None, "cert": None, "certtext": None}
        if run.status not in (0, 1) or job.state != "running":
            return answer
        with open(os.path.join(place, "plan.cert"), "rb") as file:
            data = file.read(MOST_CERTIFICATE)
        answer["certtext"] = data[:MOST_SHOWN].decode("utf-8", "replace")
        if given.get("keep"):
            name = given["part"].removesuffix(".toml") + ".cert"
            desk.folder.store_certificate(name, data)
            desk.folder.keep_pair(given["part"], given["tools"], given["machine"])
            answer["cert"] = name
        answer["sheet"] = sheet_of(desk, place, job)
        return answer


def sheet_of(desk: Desk, place: str, job: Job) -> str | None:
    """The drawn sheet of plan.cert; None where no program that draws is built, or it failed."""
    if not desk.drawer:
        return None
    drawn = desk.runs.call(["plan.cert", "sheet.html"], place, SHEET_SECONDS, job, [desk.drawer])
    if drawn.status not in (0, 1):
        return None
    with open(os.path.join(place, "sheet.html"), encoding="utf-8") as file:
        return file.read(MOST_CERTIFICATE)


def proposed(desk: Desk, texts: dict[str, bytes], given: dict[str, Any], job: Job) -> dict[str, Any]:
    """Proposals for the part's stations, and which of them the program plans at the least cost.

    Where one has a plan, `take` has the machine file with the cheapest one's stations, and `tools` the tools file with
    the punches that are turned round for it, where there are any.
    """
    with work_folder(desk, texts) as place:
        words = ["part.toml", "tools.toml", "machine.toml", "setups.toml", "--quiet"]
        made = desk.runs.call([], place, MOST_SECONDS, job, bench_words("propose", words))
        said = [line.removeprefix("brake: ") for line in made.said.decode("utf-8", "replace").splitlines()]
        if made.status or job.state != "running":
            return {"status": made.status, "words": said, "lines": made.lines}
        beside = [line[6:] for line in made.lines if line.startswith("tools ")]
        tools = os.path.basename(beside[0]) if beside else "tools.toml"
        words = ["setups", "part.toml", tools, "machine.toml", "setups.toml", "setup.cert"]
        run = desk.runs.call(words, place, MOST_SECONDS, job)
        answer = {**answer_of(desk, run, words, place, given), "lines": made.lines}
        if run.status == 0:
            answer["take"] = change_toml(texts["machine"].decode(), [stations_of(answer["out"])])
            answer["tools"] = read_text(place, tools) if beside else None
        return answer


def read_text(place: str, name: str) -> str:
    """A text of a work folder."""
    with open(os.path.join(place, name), encoding="utf-8") as file:
        return file.read(MOST_SHOWN)


def stations_of(printed: str) -> dict[str, Any]:
    """The edit that gives a machine file the stations that `setups` printed."""
    stages: list[dict[str, Any]] = []
    for line in printed.splitlines():
        words = line.split()
        if words[:1] == ["stage"]:
            stages.append({"punch": words[2], "die": words[3], "at": int(words[4]), "pieces": []})
        elif words[:1] == ["pieces"]:
            stages[-1]["pieces"] = [int(word) for word in words[1:]]
        elif words[:1] == ["order"]:
            break
    return {"op": "replace", "table": "stage", "values": stages}
