"""Finds and runs the program: one child for each run, its words as a list, never through a shell."""
from __future__ import annotations

import os
import subprocess
from dataclasses import dataclass
from pathlib import Path


class NoProgram(Exception):
    """No program is built that could be run; the text says how to build it."""


@dataclass(frozen=True)
class Run:
    """What a run answered: the exit status (negative: the signal that ended it) and both outputs as bytes."""

    status: int
    printed: bytes
    said: bytes

    @property
    def lines(self) -> list[str]:
        """The lines that were printed."""
        return self.printed.decode("utf-8", "replace").splitlines()


def find_program(unproved: str | None = None) -> Path:
    """The program's path: `unproved` where it is given, else the proved one that the launcher names.

    Raises NoProgram where neither can be started.
    """
    word = unproved or os.environ.get("BRAKE_PROGRAM", "")
    if word and os.access(word, os.X_OK):
        return Path(word).resolve()
    launcher = os.environ.get("BRAKE_LAUNCHER", "./brake")
    raise NoProgram(f"no proved program is built: '{launcher} --build' proves and builds it")


def run_program(program: Path, words: list[str], *, folder: Path | None = None, seconds: float | None = None,
                given: bytes = b"") -> Run:
    """Runs the program on these words in a folder, at most so many seconds, with `given` on its standard input.

    Raises subprocess.TimeoutExpired where it takes longer; the child is ended then.
    """
    done = subprocess.run([os.fspath(program), *words], cwd=folder, input=given, capture_output=True, timeout=seconds,
                          check=False)
    return Run(done.returncode, done.stdout, done.stderr)
