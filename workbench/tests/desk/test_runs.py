"""Plans, own orders and slips over HTTP: the desk shows what the program says."""
from __future__ import annotations

import re
from pathlib import Path

import pytest

from workbench.tests.desk.helper import EXAMPLES, Desk, three


def total_of(printed: str) -> int:
    """The total of a plan that was printed."""
    found = re.search(r"(?m)^total (\d+)$", printed)
    assert found is not None
    return int(found[1])


@pytest.mark.parametrize("name", ["bracket", "pan", "lid", "u_channel", "gang_channel"])
def test_plan_is_what_the_program_prints(desk: Desk, shop: Path, name: str) -> None:
    answer = desk.run("/api/plan", {**three(name), "keep": True})
    assert answer["status"] == 0 and answer["out"] == (EXAMPLES / name / "plan.txt").read_text()
    assert (shop / name / "part.cert").read_text() == (EXAMPLES / name / "plan.cert").read_text()
    row = next(row for row in desk.get("/api/parts")["parts"] if row["name"] == f"{name}/part.toml")
    assert row["current"] and int(row["claim"]) == total_of(answer["out"])
    assert desk.get("/api/folder")["pairs"][f"{name}/part.toml"]["machine"] == f"{name}/machine.toml"


def test_a_changed_part_is_told_as_of_an_earlier_state(desk: Desk, shop: Path) -> None:
    desk.run("/api/plan", {**three("u_channel"), "keep": True})
    path = shop / "u_channel/part.toml"
    text = path.read_text()
    path.write_text(text.replace("30000", "31000"))
    row = next(row for row in desk.get("/api/parts")["parts"] if row["name"] == "u_channel/part.toml")
    path.write_text(text)
    assert row["claim"] and not row["current"]


def test_no_plan(desk: Desk) -> None:
    answer = desk.run("/api/plan", three("tall_channel"))
    assert answer["status"] == 1 and answer["cert"] is None
    assert "punch P100" in answer["words"][-1]


def test_a_refused_plan_has_its_place(desk: Desk, shop: Path) -> None:
    text = (shop / "lid/machine.toml").read_text()
    (shop / "lid/bad.toml").write_text(re.sub(r"(?m)^near = \d+", "near = -1", text))
    answer = desk.run("/api/plan", {**three("lid"), "machine": "lid/bad.toml", "keep": True})
    assert answer["status"] == 3 and answer["at"]["file"] == "machine" and "near" in answer["words"][-1]
    assert "lid/bad.toml" in answer["words"][-1]


def test_unknown_run(desk: Desk) -> None:
    assert desk.ask("GET", "/api/run/abc")[0] == 404
    assert desk.ask("DELETE", "/api/run/abc", {})[0] == 404


@pytest.mark.parametrize("name", ["bracket", "pan", "lid", "u_channel", "gang_channel"])
@pytest.mark.parametrize("by_hand", [False, True])
def test_the_plans_own_order_costs_what_the_plan_costs(desk: Desk, name: str, by_hand: bool) -> None:
    printed = desk.run("/api/plan", three(name))["out"]
    steps = [line.split() for line in printed.splitlines() if line.startswith("step ")]
    order: list[dict[str, object]] = [{"bend": int(words[3])} for words in steps]
    if by_hand:
        for row, words in zip(order, steps):
            rest = words[5:]  # behind the flange's name, which may be 'back'
            row.update(back={"parent": "P", "child": "C"}[rest[rest.index("back") + 1]],
                       stage=int(rest[rest.index("stage") + 1]))
    answer = desk.run("/api/order", {**three(name), "order": order})
    assert answer["all"] and answer["checked"] and answer["total"] == total_of(printed), answer
    assert len(answer["strokes"]) == len(steps)


def test_an_order_that_is_refused(desk: Desk) -> None:
    answer = desk.run("/api/order", {**three("tall_channel"), "order": [{"bend": 1}, {"bend": 2}]})
    assert [stroke["ok"] for stroke in answer["strokes"]] == [True, False] and not answer["all"]
    refused = answer["strokes"][1]["refused"]
    assert {way["back"] for way in refused} == {"P", "C"}
    assert all("would hit punch P100" in way["words"] and way["picture"]["hit"]["tool"] for way in refused)


@pytest.mark.parametrize("bend", [0, 9, -1])
def test_an_order_of_bends_that_are_not_there(desk: Desk, bend: int) -> None:
    answer = desk.run("/api/order", {**three("bracket"), "order": [{"bend": bend}]})
    assert "no bend" in answer["error"]


@pytest.mark.parametrize("name", ["bracket", "pan"])
def test_strokes_for_pictures(desk: Desk, name: str) -> None:
    found = desk.run("/api/motion", three(name))
    plan = (EXAMPLES / name / "plan.txt").read_text()
    assert len(found["strokes"]) == plan.count("\nstep ")
    for stroke in found["strokes"]:
        assert {box[1] for box in stroke["picture"]["boxes"]} == {"F", "B"} and len(stroke["fingers"]) == 2


def test_millimetres_in_a_file_are_told_with_the_way_out(desk: Desk, shop: Path) -> None:
    text = (shop / "bracket/part.toml").read_text().replace("thickness = 1500", "thickness = 2")
    slips = desk.post("/api/edit", {"text": text, **three("bracket")})["slips"]
    assert any(slip["key"] == "thickness" and slip["take"] == "Take 2 mm" and slip["usual"] == 2000 for slip in slips)


def test_proposed_stations(desk: Desk, shop: Path) -> None:
    """The cheapest of the proposals is one that the program plans; its stations become a machine file."""
    if not desk.get("/api/offers")["propose"]:
        pytest.skip("this brake has no command propose")
    answer = desk.run("/api/propose", three("bracket"))
    assert answer["status"] == 0, answer
    best = total_of(answer["out"])
    (shop / "bracket/taken.toml").write_text(answer["take"])
    plan = desk.run("/api/plan", {**three("bracket"), "machine": "bracket/taken.toml"})
    assert plan["status"] == 0 and total_of(plan["out"]) == best
    none = desk.run("/api/propose", three("tall_channel"))
    assert none["status"] == 1 and any("no plan" in line for line in none["lines"])


def test_commands_that_are_not_there(desk: Desk) -> None:
    offers = desk.get("/api/offers")
    for command, path in (("dxf", "/api/dxf"), ("propose", "/api/propose")):
        if not offers[command]:
            assert desk.ask("POST", path, three("bracket"))[0] == 409
