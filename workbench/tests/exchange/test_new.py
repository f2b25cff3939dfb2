"""`brake new`: each shape is a part that the program takes, with the outside sizes that were asked for."""
from __future__ import annotations

import tomllib
from pathlib import Path

import pytest

from workbench.exchange.new import main
from workbench.exchange.shapes import SHAPES as KNOWN
from workbench.exchange.shapes import gap_of
from workbench.tests.exchange.helper import SHAPES, allow, blank_of, run


def make(tmp_path: Path, words: str) -> int:
    """Runs `new` into part.toml."""
    return main([*words.split(), str(tmp_path / "part.toml")])


def read(tmp_path: Path) -> dict[str, object]:
    """The table that was stored."""
    return tomllib.loads((tmp_path / "part.toml").read_text())


def test_each_shape_has_sizes_here() -> None:
    """No shape is left out of these tests."""
    assert set(SHAPES) == set(KNOWN)


@pytest.mark.parametrize("shape", SHAPES)
@pytest.mark.parametrize("sheet", ["1.5 1.5", "1 2", "3 1", "2 10"])
def test_the_program_takes_each_shape(program: Path, tmp_path: Path, shape: str, sheet: str) -> None:
    """Thin and thick sheet, small and large radius: each has a blank by DIN 6935."""
    thickness, radius = sheet.split()
    assert make(tmp_path, f"{shape} {SHAPES[shape]} --thickness {thickness} --radius {radius}") == 0
    tools = allow(tmp_path / "tools.toml", "DC01", int(1000 * float(thickness)), int(1000 * float(radius)))
    assert blank_of(program, tmp_path / "part.toml", tools).startswith("blank\nsize ")


def test_sizes_are_outside_sizes(tmp_path: Path, capsys: pytest.CaptureFixture[str]) -> None:
    """The hat of a drawing, in micrometres; what was made is shown."""
    assert make(tmp_path, "hat 60x40.5x25 --length 500 --thickness 2 --material S235") == 0
    part = read(tmp_path)
    assert (part["material"], part["thickness"], part["radius"]) == ("S235", 2000, 2000)
    faces = part["face"]
    assert isinstance(faces, list)
    assert [(face["name"], face["width"], face["length"], face.get("dir")) for face in faces] == [
        ("web", 500000, 60000, None), ("north", 500000, 40500, "down"), ("south", 500000, 40500, "down"),
        ("nbrim", 500000, 25000, "up"), ("sbrim", 500000, 25000, "up")]
    shown = capsys.readouterr().out
    assert "+---web---+" in shown and "face 1 north 500 x 40.5 on web N at 0, down" in shown


@pytest.mark.parametrize("kind", ["machine", "tools"])
def test_templates_are_taken(program: Path, tmp_path: Path, kind: str) -> None:
    """A leg is planned with both templates as they stand."""
    assert make(tmp_path, "l 60x40 --length 300") == 0
    for name in ("machine", "tools"):
        assert main([name, str(tmp_path / f"{name}.toml")]) == 0
    assert tomllib.loads((tmp_path / "machine.toml").read_text())["fine"] == 10
    files = [tmp_path / f"{name}.toml" for name in ("part", "tools", "machine")]
    assert run(program, "plan", *files, tmp_path / "run.cert").returncode == 0
    assert (tmp_path / f"{kind}.toml").read_text().startswith("#:schema ")


@pytest.mark.parametrize(("words", "sentence"), [
    ("ring 10x10", "no shape is called 'ring'"),
    ("hat 60x40 --length 9", "hat has 3 sizes, web x wall x brim: 2 are given"),
    ("hat 60x40x25", "--length is missing"),
    ("hat 60,5x40x25 --length 9", "a decimal point, not a comma"),
    ("hat 60x40x0 --length 9", "brim 0 mm is out of range, 0.001 to 10000 mm"),
    ("hat 60x40x-2 --length 9", "isn't a length in mm"),
    ("l 60x40 --length 9 --thickness 1.501", "has to be even"),
    ("l 60x40 --length 9 --thickness 51", "--thickness 51 mm is out of range"),
    ("l 60x40 --length 9 --material a_name_that_is_much_too_long", "isn't a name"),
    ("l 60x40 --length 9 --gap 2", "a profile has no corners"),
    ("tray 300x3x40", "the width leaves no wall"),
    ("lipped 300x60x40x40", "the lips on the length leave"),
    ("box 300x200x5x20", "the height leaves"),
    ("tray 300x200x40 --length 9", "--length is for profiles"),
    ("tray 300x200x40 --colour red", "unrecognized arguments"),
])
def test_faulty_words_are_refused(tmp_path: Path, capsys: pytest.CaptureFixture[str], words: str,
                                  sentence: str) -> None:
    """Each has a sentence of its own and the status of faulty words, and nothing is stored."""
    assert make(tmp_path, words) == 2
    assert sentence in capsys.readouterr().err
    assert not list(tmp_path.iterdir())


def test_no_file_is_stored_over(tmp_path: Path, capsys: pytest.CaptureFixture[str]) -> None:
    """A part file that is there stays as it is."""
    (tmp_path / "part.toml").write_text("mine")
    assert make(tmp_path, "l 60x40 --length 300") == 70
    assert (tmp_path / "part.toml").read_text() == "mine"
    assert "there already" in capsys.readouterr().err
    assert main(["machine", str(tmp_path / "none" / "machine.toml")]) == 6


def test_the_gap_is_on_a_tenth_of_a_millimetre() -> None:
    """It is at least t + 0.2147 r, upwards."""
    assert (gap_of(1500, 1500), gap_of(2000, 10000), gap_of(1000, 0)) == (1900, 4200, 1000)
