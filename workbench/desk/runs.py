"""Runs of programs: each a child in a session of its own, so that ending one ends what it started and nothing else."""
from __future__ import annotations

import os
import secrets
import signal
import subprocess
import threading
import time
from collections.abc import Callable
from dataclasses import dataclass, field
from pathlib import Path
from typing import Any

from workbench.desk.refused import Refused
from workbench.program import Run

MOST_PRINTED = 64 << 20
MOST_SAID = 1 << 16
KEPT_JOBS = 20
QUEUED = ("plan", "propose")


@dataclass
class Job:
    """Work that the page asks about until it has ended."""

    kind: str
    key: str = field(default_factory=lambda: secrets.token_hex(8))
    state: str = "waiting"
    """One of waiting, running, done, cancelled."""
    begun: float = field(default_factory=time.time)
    ended: float | None = None
    answer: Any = None
    rows: list[Any] = field(default_factory=list)
    child: subprocess.Popen[bytes] | None = None

    def as_data(self) -> dict[str, Any]:
        """How far the job is, for the page."""
        seconds = (self.ended or time.time()) - self.begun
        return {"state": self.state, "seconds": seconds, "rows": self.rows,
                "answer": self.answer if self.ended else None}


def end_child(child: subprocess.Popen[bytes]) -> None:
    """Ends a child and what it started."""
    if child.poll() is None:
        os.killpg(child.pid, signal.SIGTERM)


class Runs:
    """The jobs of one desk. Plans come one after the other; an own order waits for nobody."""

    def __init__(self, program: Path, scratch: str) -> None:
        self.program, self.scratch = program, scratch
        self.jobs: dict[str, Job] = {}
        self.lock, self.turn = threading.Lock(), threading.Lock()

    def call(self, words: list[str], folder: str, seconds: float = 20, job: Job | None = None,
             program: list[str] | None = None) -> Run:
        """Runs the proved program, or another, on these words in a folder; a job that is cancelled ends it."""
        whole = [*(program or [os.fspath(self.program)]), *words]
        child = subprocess.Popen(whole, cwd=folder, stdin=subprocess.DEVNULL, stdout=subprocess.PIPE,
                                 stderr=subprocess.PIPE, start_new_session=True)
        if job is not None:
            job.child = child
            if job.state == "cancelled":
                end_child(child)
        late = b""
        try:
            printed, said = child.communicate(timeout=seconds)
        except subprocess.TimeoutExpired:
            end_child(child)
            printed, said = child.communicate()
            late = f"no answer within {seconds:g} seconds\n".encode()
        return Run(child.returncode, printed[:MOST_PRINTED], said[:MOST_SAID] + late)

    def begin(self, kind: str, work: Callable[[Job], Any]) -> Job:
        """Begins a job; `work` gives its answer."""
        if kind in QUEUED:
            for old in list(self.jobs.values()):
                if old.kind == "propose":
                    self.cancel(old)
        job = Job(kind)
        turn = self.turn if kind in QUEUED else threading.Lock()
        with self.lock:
            self.jobs[job.key] = job
            ended = sorted((old for old in self.jobs.values() if old.ended), key=lambda old: old.begun)
            for old in ended[:-KEPT_JOBS]:
                del self.jobs[old.key]
        threading.Thread(target=self.go, args=(job, turn, work), daemon=True).start()
        return job

    @staticmethod
    def go(job: Job, turn: threading.Lock, work: Callable[[Job], Any]) -> None:
        """Does the work when it is the job's turn; a fault is told on the page, and never ends silently."""
        with turn:
            if job.state == "waiting":
                job.state = "running"
                try:
                    job.answer = work(job)
                except Refused as refused:
                    job.answer = refused.body
                except Exception as fault:  # pylint: disable=broad-except
                    job.answer = {"error": f"{type(fault).__name__}: {fault}"}
                if job.state == "running":
                    job.state = "done"
            job.ended = time.time()

    def find(self, key: str) -> Job:
        """The job of a key. Raises Refused."""
        job = self.jobs.get(key)
        if job is None:
            raise Refused(404, "this run isn't known any more")
        return job

    @staticmethod
    def cancel(job: Job) -> None:
        """Ends a job that hasn't ended."""
        if job.state in ("waiting", "running"):
            job.state = "cancelled"
            if job.child is not None:
                end_child(job.child)

    def end(self) -> None:
        """Ends all jobs."""
        for job in list(self.jobs.values()):
            self.cancel(job)
