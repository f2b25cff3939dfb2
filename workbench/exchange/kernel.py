"""Open CASCADE, by Debian's python3-gmsh, in a child process: what it does to a broken file ends nothing but the child."""
from __future__ import annotations

import json
import os
import subprocess
import sys
import tempfile
from pathlib import Path
from typing import Any

from .endings import FILES, Ends

PACKAGE_HOME = Path(__file__).resolve().parents[2]
SECONDS = 120
"""After which the child is ended."""


class KernelStopped(Exception):
    """The kernel crashed, took too long, or couldn't do it; the text says which."""


def run_kernel(work: str, data: dict[str, Any], seconds: float = SECONDS) -> dict[str, Any]:
    """Has a child do a piece of work of `kernel_child`, and gives its answer. Raises KernelStopped."""
    with tempfile.TemporaryDirectory(prefix="brake-") as place:
        asked, answered = Path(place) / "asked.json", Path(place) / "answered.json"
        asked.write_text(json.dumps(data), encoding="utf-8")
        environment = {**os.environ, "PYTHONPATH": os.fspath(PACKAGE_HOME), "PYTHONDONTWRITEBYTECODE": "1"}
        words = [sys.executable, "-m", "workbench.exchange.kernel_child", work, os.fspath(asked), os.fspath(answered)]
        try:
            done = subprocess.run(words, env=environment, stdin=subprocess.DEVNULL, capture_output=True, timeout=seconds,
                                  check=False)
        except subprocess.TimeoutExpired:
            raise KernelStopped(f"the CAD kernel didn't end within {seconds:g} s") from None
        if not answered.is_file():
            raise KernelStopped(f"the CAD kernel ended with status {done.returncode}")
        answer: dict[str, Any] = json.loads(answered.read_text(encoding="utf-8"))
    if "fault" in answer:
        raise KernelStopped(answer["fault"])
    return answer


def write_body(data: dict[str, Any]) -> tuple[bytes, float]:
    """The STEP file of a body, and the volume in mm3 that its pieces share where they lie in one another. Raises Ends."""
    with tempfile.TemporaryDirectory(prefix="brake-") as place:
        out = Path(place) / "body.step"
        try:
            answer = run_kernel("write", {**data, "out": os.fspath(out)})
        except KernelStopped as fault:
            raise Ends(f"the body wasn't made: {fault}", FILES) from None
        return out.read_bytes(), float(answer["shared"])
