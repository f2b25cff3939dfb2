"""Short ways for the tests of the exchange."""
from __future__ import annotations

import subprocess
from pathlib import Path

ROOT = Path(__file__).resolve().parents[3]
BUILT = ROOT / "crates/brake_cli/out/brake_cli"
EXAMPLES = sorted(path.parent for path in ROOT.glob("examples/*/part.toml"))
LIMIT = 120
"""Seconds after which a run fails."""

SHAPES = {
    "l": "60x40 --length 300", "u": "60x30 --length 300", "z": "60x30x20 --length 200", "hat": "60x40x25 --length 500",
    "c": "100x50x15 --length 400", "tray": "300x200x40", "lipped": "300x200x40x15", "cover": "400x200x40x15",
    "box": "300x200x40x20",
}
"""A shape of `brake new` with sizes for it."""


def run(program: Path, *words: object) -> subprocess.CompletedProcess[str]:
    """Runs the program on these words, at most two minutes."""
    return subprocess.run([program, *map(str, words)], capture_output=True, text=True, timeout=LIMIT, check=False)


def blank_of(program: Path, part: Path, tools: Path) -> str:
    """What the program prints of a part's blank; the test fails where it refuses."""
    done = run(program, "blank", part, tools)
    assert done.returncode == 0, f"{part}: {done.stdout}{done.stderr}"
    return done.stdout


def allow(path: Path, material: str, thickness: int, radius: int) -> Path:
    """A tools file with one allowance and no tools."""
    path.write_text(f'[[allow]]\nmaterial = "{material}"\nthickness = {thickness}\nradius = {radius}\nk = 650\n')
    return path
