"""Slips as pure functions: what is told, with the file, the key and both numbers."""
from __future__ import annotations

import copy
import tomllib
from typing import Any

import pytest

from workbench.slips import Slip, all_slips, half_deduction, usual_k
from workbench.tests.desk.helper import EXAMPLES

Files = tuple[dict[str, Any], dict[str, Any], dict[str, Any], str]


def example(name: str) -> Files:
    """The parsed files of an example, and its blank."""
    part, tools, machine = (tomllib.loads((EXAMPLES / name / f"{kind}.toml").read_text())
                            for kind in ("part", "tools", "machine"))
    return part, tools, machine, (EXAMPLES / name / "blank.txt").read_text()


def found(files: Files, key: str, file: str) -> list[Slip]:
    """The slips of a key of a file."""
    return [slip for slip in all_slips(*files) if (slip.file, slip.key) == (file, key)]


def changed(part: dict[str, Any], **values: Any) -> dict[str, Any]:
    """The part with other values."""
    return {**copy.deepcopy(part), **values}


@pytest.mark.parametrize("name", ["bracket", "lid", "shelf", "hat_channel"])
def test_examples_have_no_slips_of_units(name: str) -> None:
    files = example(name)
    assert not [slip for slip in all_slips(*files) if slip.take]


def test_millimetres() -> None:
    part, tools, machine, blank = example("bracket")
    thin = changed(part, thickness=2)
    thin["face"][2]["length"] = 15
    slips = all_slips(thin, tools, machine, None)
    assert [(slip.key, slip.found, slip.usual, slip.take) for slip in slips if slip.take] == [
        ("thickness", 2, 2000, "Take 2 mm"), ("length", 15, 15000, "Take 15 mm")]
    assert slips[0].edits == ({"op": "set", "path": ["thickness"], "value": 2000},)
    assert blank


def test_k_far_from_the_standard() -> None:
    part, tools, machine, blank = example("bracket")
    tools = copy.deepcopy(tools)
    tools["allow"][0]["k"] = 1000
    [slip] = found((part, tools, machine, blank), "k", "tools")
    assert (slip.found, slip.usual, slip.table) == (1000, usual_k(1500, 1500), "allow 0") and "longer" in slip.words
    tools["allow"][0]["k"] = 300
    assert "shorter" in found((part, tools, machine, blank), "k", "tools")[0].words


def test_measured_deduction() -> None:
    part, tools, machine, blank = example("bracket")
    tools = copy.deepcopy(tools)
    half = round(half_deduction(1500, 1500, 650))
    row = tools["allow"][0]
    del row["k"]
    row["q"] = half + 100
    assert not found((part, tools, machine, blank), "q", "tools")
    row["q"] = half + 400
    [slip] = found((part, tools, machine, blank), "q", "tools")
    assert (slip.found, slip.usual) == (half + 400, half)


def test_dies_that_do_not_suit() -> None:
    part, tools, machine, blank = example("bracket")
    wide = copy.deepcopy(tools)
    wide["die"][0]["v"] = 40000
    [slip] = found((part, wide, machine, blank), "die", "machine")
    assert slip.found == 40000 and "40 mm" in slip.words
    [slip] = found((changed(part, radius=6000), tools, machine, blank), "radius", "part")
    assert slip.found == 6000 and "about 1.9 mm" in slip.words


def test_machine() -> None:
    part, tools, machine, blank = example("bracket")
    machine = copy.deepcopy(machine)
    machine["fine"] = 3
    machine["gauge"]["near"] = 800000
    files = part, tools, machine, blank
    assert [(slip.found, slip.usual) for slip in found(files, "fine", "machine")] == [(3, 10)]
    assert [(slip.found, slip.usual) for slip in found(files, "near", "machine")] == [(800000, 700000)]


def test_a_narrow_flange() -> None:
    part, tools, machine, _ = example("bracket")
    part = copy.deepcopy(part)
    part["face"][1].update(at=20000, width=40000)
    del part["face"][2]
    blank = "\n".join(["blank", "size 80000 107122", "face 0 base 0 0 80000 58561", "face 1 back 20000 58561 60000 107122",
                       "bend 1 20000 58561 60000 58561 up"])
    [slip] = found((part, tools, machine, blank), "width", "part")
    assert slip.face == 1 and "1.439 mm inside the drawing, along 20 mm and 20 mm" in slip.words


@pytest.mark.parametrize("part", [{}, {"face": []}, {"thickness": "much"}, {"thickness": 0, "radius": 0, "face": 7}])
def test_files_that_are_not_whole(part: dict[str, Any]) -> None:
    assert isinstance(all_slips(part, {"allow": 7, "die": [{}]}, {"gauge": 1}, None), list)
