"""`brake import`: bodies come back as parts with an equal blank, and what isn't of this kind is refused in a sentence."""
from __future__ import annotations

import random
import re
import tomllib
from dataclasses import replace
from pathlib import Path
from typing import Any

import pytest

pytest.importorskip("gmsh", reason="python3-gmsh isn't installed: the tests of import are left out")

from workbench.exchange.body_of_part import Body, body_of, flush_body_of  # noqa: E402
from workbench.exchange.endings import Ends  # noqa: E402
from workbench.exchange.folded import as_data, half_deduction  # noqa: E402
from workbench.exchange.kernel import write_body  # noqa: E402
from workbench.exchange.new import make_part, read_words  # noqa: E402
from workbench.exchange.part_file import DOWN, UP, Face, Part, part_text, read_part  # noqa: E402
from workbench.exchange.step_in import import_body  # noqa: E402
from workbench.exchange.step_in import main, read_words as read_import  # noqa: E402
from workbench.tests.exchange.helper import EXAMPLES, SHAPES, allow, blank_of  # noqa: E402
from workbench.tests.exchange.same_blank import canonical  # noqa: E402

MORE = {
    "tabs": [Face("base", 200_000, 100_000), Face("a", 40_000, 30_000, "base", "N", 20_000, UP),
             Face("b", 60_000, 25_000, "base", "N", 100_000, DOWN), Face("c", 50_000, 20_000, "base", "E", 25_000, UP)],
    "stair": [Face("f0", 90_000, 80_000), Face("f1", 90_000, 40_000, "f0", "N", 0, UP),
              Face("f2", 90_000, 50_000, "f1", "N", 0, DOWN), Face("f3", 90_000, 30_000, "f2", "N", 0, UP),
              Face("f4", 40_000, 25_000, "f3", "N", 25_000, DOWN)],
    "arms": [Face("f0", 60_000, 60_000), Face("f1", 60_000, 50_000, "f0", "N", 0, UP),
             Face("f2", 30_000, 40_000, "f1", "E", 5_000, UP), Face("f3", 60_000, 45_000, "f0", "S", 0, DOWN),
             Face("f4", 20_000, 30_000, "f3", "W", 10_000, DOWN)],
    "twelve": [Face("f0", 300_000, 30_000)] + [
        Face(f"f{i}", 300_000, 25_000 + 500 * i, f"f{i - 1 if i > 2 else 0}" if i != 2 else "f0",
             "N" if i != 2 else "S", 0, UP if i % 4 < 2 else DOWN) for i in range(1, 13)][:4],
}


def parts() -> dict[str, Part]:
    """The examples' parts, one of each shape of `new`, and some that branch."""
    found = {folder.name: read_part((folder / "part.toml").read_bytes()) for folder in EXAMPLES}
    for shape, words in SHAPES.items():
        found[f"new_{shape}"] = make_part(read_words([shape, *words.split(), "part.toml"]))
    for name, faces in MORE.items():
        found[name] = Part("S235", 2000, 3000, tuple(faces))
    return found


PARTS = parts()


def placed(seed: int) -> list[float]:
    """A turn about any axis and a move, as the kernel's matrix of three rows."""
    chance = random.Random(seed)
    a, b, c, d = (chance.gauss(0, 1) for _ in range(4))
    n = (a * a + b * b + c * c + d * d) ** 0.5
    a, b, c, d = a / n, b / n, c / n, d / n
    move = [chance.uniform(-500, 500) for _ in range(3)]
    return [1 - 2 * (c * c + d * d), 2 * (b * c - a * d), 2 * (b * d + a * c), move[0],
            2 * (b * c + a * d), 1 - 2 * (b * b + d * d), 2 * (c * d - a * b), move[1],
            2 * (b * d - a * c), 2 * (c * d + a * b), 1 - 2 * (b * b + c * c), move[2], 0, 0, 0, 1]


def store(path: Path, body: Body, **more: Any) -> Path:
    """Stores a body with a matrix and cuts."""
    path.write_bytes(write_body({**as_data(body), **more})[0])
    return path


def import_of(body: Path, *options: str) -> list[str]:
    """Imports into part.toml beside the body."""
    return import_body(read_import([str(body), str(body.with_name("part.toml")), "--material", "S235", *options]))


def blanks(program: Path, folder: Path, part: Part) -> tuple[str, int]:
    """The printed blank of a part, and its q."""
    (folder / "wanted.toml").write_text(part_text(replace(part, material="S235"), []))
    tools = allow(folder / "tools.toml", "S235", part.thickness, part.radius)
    printed = blank_of(program, folder / "wanted.toml", tools)
    return printed, half_deduction(part, printed.encode(), "blank")


@pytest.mark.parametrize("name", PARTS)
@pytest.mark.parametrize("way", ["as the program has it", "flush, turned"])
def test_a_body_comes_back(program: Path, tmp_path: Path, name: str, way: str) -> None:
    """The part that is read has the blank of the part of which the body was made, up to a turn or a flip of the sheet."""
    part = PARTS[name]
    wanted, q = blanks(program, tmp_path, part)
    if way.startswith("flush"):
        body = store(tmp_path / "body.step", flush_body_of(part, part.thickness // 2), matrix=placed(len(name)))
    else:
        body = store(tmp_path / "body.step", body_of(part, q))
    import_of(body)
    assert canonical(blank_of(program, tmp_path / "part.toml", tmp_path / "tools.toml")) == canonical(wanted)
    text = (tmp_path / "part.toml").read_text()
    assert "Of body.step, sha256 " in text and text.startswith("#:schema ") and 'name = "base"' in text
