"""The Part view: edits and the blank after each, what is told of slips, DXF out and STEP in."""
from __future__ import annotations

import os
import sys
from pathlib import Path
from typing import Any

from workbench.desk.folder import MOST_FILE
from workbench.desk.job import BLANK, answer_of, put, texts_of, work_folder
from workbench.desk.refused import Refused
from workbench.desk.server import Api, Desk
from workbench.desk.view_files import parsed
from workbench.files import FaultyEdit, change_toml
from workbench.slips import all_slips

PACKAGE = Path(__file__).resolve().parent.parent
BESIDE = {"dxf": "exchange/dxf_out.py", "import": "exchange/step_in.py", "propose": "propose/command.py"}


def is_offered(command: str) -> bool:
    """Whether a command of the workbench stands."""
    return (PACKAGE / BESIDE[command]).is_file()


def bench_words(command: str, words: list[str]) -> list[str]:
    """How another command of the workbench is started as a child."""
    return [sys.executable, "-m", "workbench", command, *words]


def register(api: Api, desk: Desk) -> None:
    """The endpoints of this view."""
    @api.on("GET", "/api/offers")
    def offers(_given: dict[str, Any]) -> dict[str, Any]:
        return {"launcher": desk.launcher, "sheet": bool(desk.drawer),
                **{command: is_offered(command) for command in BESIDE}}

    @api.on("POST", "/api/edit")
    def edit(given: dict[str, Any]) -> dict[str, Any]:
        return edited(desk, given)

    @api.on("POST", "/api/dxf")
    def dxf(given: dict[str, Any]) -> dict[str, Any]:
        return {"dxf": dxf_of(desk, given), "name": Path(given["part"]).stem + ".dxf"}


    @api.on("POST", "/api/import")
    def step_in(given: dict[str, Any]) -> dict[str, Any]:
        text = imported(desk, given["step"])
        return {"tag": desk.folder.write(given["name"], text.encode(), None)}


def imported(desk: Desk, step: str) -> str:
    """The part file of a STEP body, by the command `import`. Raises Refused."""
    if not is_offered("import"):
        raise Refused(409, "this brake has no command import")
    with work_folder(desk, {}) as place:
        put(place, "body.step", step)
        made = desk.runs.call([], place, 120, None, bench_words("import", ["body.step", "part.toml"]))
        if made.status:
            said = (made.said + made.printed).decode("utf-8", "replace").strip()
            raise Refused(409, said.removeprefix("brake: ") or "no part was made of this body")
        with open(os.path.join(place, "part.toml"), encoding="utf-8") as file:
            return file.read(MOST_FILE)


def edited(desk: Desk, given: dict[str, Any]) -> dict[str, Any]:
    """The text after the edits, kept as a draft; its blank, or the refusal; and its slips."""
    text, name = given["text"], given.get("name")
    if len(text) > MOST_FILE:
        raise Refused(413, f"longer than {MOST_FILE} bytes")
    if given.get("ops"):
        try:
            text = change_toml(text, given["ops"])
        except FaultyEdit as fault:
            raise Refused(400, str(fault)) from None
    if name:
        desk.folder.keep_draft(name, text)  # of a text that is stored there is no draft
    answer: dict[str, Any] = {"text": text, "data": parsed(text), "slips": []}
    if given.get("tools"):
        answer["blank"] = blank_of(desk, text, name or "part.toml", given["tools"])
        answer["slips"] = slips_of(desk, answer["data"], given, answer["blank"])
    return answer


def blank_of(desk: Desk, text: str, name: str, tools: str) -> dict[str, Any]:
    """The blank as the program prints it, or its refusal."""
    texts = {"part": text.encode(), "tools": desk.folder.read(tools)}
    with work_folder(desk, texts) as place:
        run = desk.runs.call(BLANK, place)
        return answer_of(desk, run, BLANK, place, {"part": name, "tools": tools})


def slips_of(desk: Desk, part: dict[str, Any], given: dict[str, Any], blank: dict[str, Any]) -> list[dict[str, Any]]:
    """The slips of the files; none of a file that can't be read, since its refusal is told."""
    try:
        tools, machine = (parsed(desk.folder.read_text(given[kind])) if given.get(kind) else {}
                          for kind in ("tools", "machine"))
    except Refused:
        return []
    printed = blank["out"] if blank["status"] == 0 else None
    return [slip.as_data() for slip in all_slips(part, tools, machine, printed)]


def dxf_of(desk: Desk, given: dict[str, Any]) -> str:
    """The blank as DXF, by the command `dxf`. Raises Refused."""
    if not is_offered("dxf"):
        raise Refused(409, "this brake has no command dxf")
    with work_folder(desk, texts_of(desk, given, ("part", "tools"))) as place:
        run = desk.runs.call(BLANK, place)
        if run.status:
            raise Refused(409, (answer_of(desk, run, BLANK, place, given)["words"] or run.lines)[-1])
        put(place, "blank.txt", run.printed)
        made = desk.runs.call([], place, 60, None, bench_words("dxf", ["blank.txt", "blank.dxf"]))
        if made.status:
            said = made.said.decode("utf-8", "replace").strip().removeprefix("brake: ")
            raise Refused(409, said or "no DXF was made")
        with open(os.path.join(place, "blank.dxf"), encoding="utf-8", newline="") as file:
            return file.read()
