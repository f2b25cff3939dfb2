"""A desk for tests: a server of its own over a copy of the examples, asked by plain HTTP."""
from __future__ import annotations

import http.client
import json
import os
import shutil
import signal
import subprocess
import sys
import time
from pathlib import Path
from typing import Any

import pytest

ROOT = Path(__file__).resolve().parents[3]
EXAMPLES = ROOT / "examples"
BUILT = ROOT / "crates" / "brake_cli" / "out" / "brake_cli"
SHOP = ("bracket", "pan", "tall_channel", "lid", "u_channel", "gang_channel")
FILES = ("part.toml", "tools.toml", "machine.toml")
LIMIT = 60.0
"""Seconds after which a test gives up."""


def program() -> str:
    """The program of the tests; a test is skipped where there is none."""
    found = os.environ.get("BRAKE_PROGRAM") or str(BUILT)
    if not os.access(found, os.X_OK):
        pytest.skip("no program is built: brake --build builds the proved one, or BRAKE_PROGRAM names one")
    return found


def three(name: str) -> dict[str, str]:
    """The three files of an example, as a request names them."""
    return {kind: f"{name}/{kind}.toml" for kind in ("part", "tools", "machine")}


def fill(shop: Path, names: tuple[str, ...] = SHOP) -> None:
    """Copies examples into a folder."""
    for name in names:
        (shop / name).mkdir(parents=True)
        for file in FILES:
            shutil.copy(EXAMPLES / name / file, shop / name / file)


class Desk:
    """A running desk."""

    def __init__(self, folder: Path, *words: str) -> None:
        environment = {**os.environ, "BRAKE_PROGRAM": program(), "BRAKE_LAUNCHER": "./brake", "PYTHONPATH": str(ROOT),
                       "PYTHONDONTWRITEBYTECODE": "1"}
        self.child = subprocess.Popen([sys.executable, "-m", "workbench", "desk", str(folder), "--no-browser", *words],
                                      stdout=subprocess.PIPE, text=True, env=environment)
        assert self.child.stdout is not None
        self.child.stdout.readline()
        self.url = self.child.stdout.readline().strip()
        self.port, self.token = int(self.url.split(":")[2].split("/")[0]), self.url.split("#")[1]

    def ask(self, method: str, path: str, body: Any = None, raw: bytes | None = None,
            **headers: str | None) -> tuple[int, Any, http.client.HTTPResponse]:
        """The status, the answer and the response; a header of None isn't sent."""
        sent = {"X-Desk": self.token, "Content-Type": "application/json",
                **{key.replace("_", "-"): value for key, value in headers.items()}}
        connection = http.client.HTTPConnection("127.0.0.1", self.port, timeout=LIMIT)
        data = raw if raw is not None else json.dumps(body) if body is not None else None
        connection.request(method, path, data, {key: value for key, value in sent.items() if value is not None})
        response = connection.getresponse()
        text = response.read().decode("utf-8", "replace")
        connection.close()
        try:
            return response.status, json.loads(text), response
        except ValueError:
            return response.status, text, response

    def get(self, path: str) -> Any:
        """The answer of a GET that is to succeed."""
        status, answer, _ = self.ask("GET", path)
        assert status == 200, answer
        return answer

    def post(self, path: str, body: Any) -> Any:
        """The answer of a POST that is to succeed."""
        status, answer, _ = self.ask("POST", path, body)
        assert status == 200, answer
        return answer

    def file(self, name: str) -> Any:
        """A file as the page gets it."""
        return self.get(f"/api/file?name={name}")

    def run(self, path: str, body: Any) -> Any:
        """A run from its begin to its end."""
        key = self.post(path, body)["id"]
        return self.wait(key)["answer"]

    def wait(self, key: str) -> Any:
        """A run when it has ended."""
        end = time.monotonic() + LIMIT
        while time.monotonic() < end:
            run = self.get(f"/api/run/{key}")
            if run["answer"] is not None or run["state"] == "cancelled":
                return run
            time.sleep(.02)
        raise AssertionError("the run didn't end")

    def end(self, how: int = signal.SIGTERM) -> None:
        """Ends the desk."""
        if self.child.poll() is None:
            self.child.send_signal(how)
            self.child.wait(20)
        if self.child.stdout is not None:
            self.child.stdout.close()
