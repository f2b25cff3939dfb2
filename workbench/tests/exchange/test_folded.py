"""`brake folded`: the body of a part, joined by the kernel, with true radii."""
from __future__ import annotations

import math
from pathlib import Path

import pytest

pytest.importorskip("gmsh", reason="python3-gmsh isn't installed: the tests of folded are left out")

from workbench.exchange.body_of_part import body_of  # noqa: E402
from workbench.exchange.folded import main  # noqa: E402
from workbench.exchange.kernel import run_kernel  # noqa: E402
from workbench.exchange.part_file import UP, Face, Part  # noqa: E402
from workbench.tests.exchange.helper import ROOT  # noqa: E402

PAN = ROOT / "examples/pan"


def test_the_body_of_a_leg_has_its_volume(program: Path, tmp_path: Path) -> None:
    """Two plates and a quarter ring, in mm3; the outer sizes are those of the drawing."""
    (tmp_path / "part.toml").write_text(
        'material = "S235"\nthickness = 2000\nradius = 2000\n[[face]]\nname = "base"\nwidth = 100000\nlength = 50000\n'
        '[[face]]\nname = "leg"\non = "base"\nside = "N"\nat = 0\nwidth = 100000\nlength = 30000\ndir = "up"\n')
    assert main([str(tmp_path / "part.toml"), str(PAN / "tools.toml"), str(tmp_path / "out.step")]) == 0
    read = run_kernel("read", {"path": str(tmp_path / "out.step"), "solid": 0})
    assert read["volume"] == pytest.approx(100 * (2 * 46 + 2 * 26 + math.pi / 4 * (16 - 4)), abs=1e-3)
    (box,) = read["solids"]
    assert [b - a for a, b in zip(box[:3], box[3:])] == pytest.approx([100, 50, 30], abs=1e-5)
    assert sorted(face["radius"] for face in read["faces"] if face["kind"] == "Cylinder") == pytest.approx([2, 4])


def test_faulty_input_has_its_sentence(program: Path, tmp_path: Path, capsys: pytest.CaptureFixture[str]) -> None:
    """A part that the program refuses, one that isn't there, and an input as the output: nothing is stored."""
    (tmp_path / "part.toml").write_text("material = 1\n")
    out = tmp_path / "out.step"
    assert main([str(tmp_path / "part.toml"), str(PAN / "tools.toml"), str(out)]) == 3
    said = capsys.readouterr()
    assert said.out.startswith("refused part ") and "prints no blank" in said.err
    assert main([str(tmp_path / "none.toml"), str(PAN / "tools.toml"), str(out)]) == 6
    assert main([str(tmp_path / "part.toml"), str(PAN / "tools.toml"), str(tmp_path / "part.toml")]) == 70
    assert main([str(tmp_path / "part.toml")]) == 2
    assert [path.name for path in tmp_path.iterdir()] == ["part.toml"]


def test_an_edge_beside_a_narrow_flange_stands_q_inside() -> None:
    """Strips beside the flange reach from r + t to q inside the mould line."""
    part = Part("S235", 2000, 2000, (Face("base", 100_000, 50_000), Face("tab", 40_000, 30_000, "base", "N", 30_000, UP)))
    body = body_of(part, 1919)
    assert ((0, 46_000, -1000), (30_000, 48_081, 1000)) in body.boxes
    assert ((70_000, 46_000, -1000), (100_000, 48_081, 1000)) in body.boxes
    assert [(ring.length, ring.inner, ring.outer) for ring in body.rings] == [(40_000, 2000, 4000)]
