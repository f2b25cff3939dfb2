"""What the tests of `brake propose` share: the program, small files, and a way to run the command."""
from __future__ import annotations

import os
import subprocess
import sys
from dataclasses import dataclass
from pathlib import Path

import pytest

HERE = Path(__file__).resolve().parents[3]
LIMIT = 120.0
"""Seconds after which a run of the command fails a test."""
COMMON = HERE / "examples" / "bracket"


def _program() -> str:
    named = os.environ.get("BRAKE_PROGRAM", "")
    built = HERE / "crates/brake_cli/out/brake_cli"
    return named or (str(built) if os.access(built, os.X_OK) else "")


@pytest.fixture(scope="session")
def program() -> Path:
    """The program, by the environment or as it is built here; without one the test is skipped."""
    path = _program()
    if not path:
        pytest.skip("no program: BRAKE_PROGRAM names none and none is built")
    return Path(path)


@dataclass
class Done:
    """What a run of the command came to."""

    status: int
    lines: list[str]
    said: str


class Command:
    """Runs `brake propose` and the program in one folder."""

    def __init__(self, program: Path, folder: Path) -> None:
        self.program, self.folder = program, folder
        self.environment = {**os.environ, "BRAKE_PROGRAM": str(program), "BRAKE_LAUNCHER": "", "PYTHONPATH": str(HERE),
                            "PYTHONDONTWRITEBYTECODE": "1"}

    def words(self, *words: str) -> list[str]:
        """The whole command line."""
        return [sys.executable, "-m", "workbench", "propose", *words]

    def propose(self, *words: str) -> Done:
        """One run of the command."""
        done = subprocess.run(self.words(*words), cwd=self.folder, env=self.environment, capture_output=True, text=True,
                              timeout=LIMIT, check=False)
        return Done(done.returncode, done.stdout.splitlines(), done.stderr)

    def brake(self, *words: str) -> Done:
        """One run of the program."""
        done = subprocess.run([self.program, *words], cwd=self.folder, capture_output=True, text=True, timeout=LIMIT, check=False)
        return Done(done.returncode, done.stdout.splitlines(), done.stderr)

    def write(self, name: str, text: str) -> str:
        """Writes a file of the folder."""
        (self.folder / name).write_text(text, encoding="utf-8")
        return name

    def take(self, example: str) -> tuple[str, str, str]:
        """Copies the three files of an example."""
        for name in ("part.toml", "tools.toml", "machine.toml"):
            self.write(name, (HERE / "examples" / example / name).read_text("utf-8"))
        return ("part.toml", "tools.toml", "machine.toml")


@pytest.fixture
def command(program: Path, tmp_path: Path) -> Command:
    """The command in a folder of its own."""
    return Command(program, tmp_path)
