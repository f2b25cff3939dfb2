"""What the tests of the exchange share: the program, and the examples of the repository."""
from __future__ import annotations

import os
from pathlib import Path

import pytest

from workbench.tests.exchange.helper import BUILT


@pytest.fixture(name="program")
def find_built_program(monkeypatch: pytest.MonkeyPatch) -> Path:
    """The program of the environment, or the built one."""
    program = Path(os.environ.get("BRAKE_PROGRAM") or BUILT)
    if not os.access(program, os.X_OK):
        pytest.skip("no program is built: './brake --build', or BRAKE_PROGRAM names one")
    monkeypatch.setenv("BRAKE_PROGRAM", str(program))
    return program
