"""The benchmark jobs stay the same bytes, hostile texts are refused, and it is told where two programs differ."""
from __future__ import annotations

import hashlib
import os
import subprocess
import sys
from pathlib import Path

import pytest

ROOT = Path(__file__).resolve().parents[2]
BENCH = ROOT / "bench"
BUILT = ROOT / "crates/brake_cli/out/brake_cli"
LIMIT = 120


def script(name: str, *words: object) -> subprocess.CompletedProcess[str]:
    """Runs a script of bench/, at most two minutes."""
    return subprocess.run([sys.executable, BENCH / name, *map(str, words)], capture_output=True, text=True,
                          timeout=LIMIT, check=False)


@pytest.fixture(name="program")
def built_program() -> Path:
    """The program of the environment, or the built one."""
    program = Path(os.environ.get("BRAKE_PROGRAM") or BUILT)
    if not os.access(program, os.X_OK):
        pytest.skip("no program is built: './brake --build', or BRAKE_PROGRAM names one")
    return program


def test_jobs_are_the_same_bytes(tmp_path: Path) -> None:
    """Each file has the checksum that is kept, and there are no others."""
    assert script("jobs.py", tmp_path).returncode == 0
    kept = dict(reversed(line.split()) for line in (BENCH / "jobs.sha256").read_text().splitlines())
    files = {f"./{path.relative_to(tmp_path)}": hashlib.sha256(path.read_bytes()).hexdigest()
             for path in tmp_path.rglob("*") if path.is_file()}
    assert files == kept


def test_faulty_words_are_refused(tmp_path: Path) -> None:
    """Without a folder there is no job; without a certificate there is no hostile text."""
    assert script("jobs.py").returncode == 2
    missing = script("hostile.py", tmp_path / "none.cert", tmp_path)
    assert (missing.returncode, "none.cert: No such file" in missing.stderr) == (6, True)
    assert script("times.py", tmp_path / "none").returncode == 2


def test_hostile_texts_are_refused(program: Path, tmp_path: Path) -> None:
    """Each text is refused with a line and a place, or for what its rows don't prove."""
    assert script("hostile.py", ROOT / "examples/u_channel/plan.cert", tmp_path).returncode == 0
    texts = sorted(tmp_path.glob("*.cert"))
    assert len(texts) == 13
    for text in texts:
        done = subprocess.run([program, "check", text], capture_output=True, text=True, timeout=LIMIT, check=False)
        assert (done.returncode, done.stdout.startswith("certificate refused ")) == (5, True), text.name


def test_a_program_equals_itself(program: Path) -> None:
    """Two turns of one program: a row for each run, all of them equal."""
    done = script("times.py", program, program, "--runs", 1, "--jobs", "b04_s1")
    rows = done.stdout.splitlines()
    assert done.returncode == 0, done.stdout + done.stderr
    assert [row.split()[:2] for row in rows] == [["plan", "b04_s1"], ["check", "b04_s1"]]
    assert all(row.endswith("equal") for row in rows)


def test_another_answer_is_told(program: Path, tmp_path: Path) -> None:
    """A program that answers otherwise is told as different, and the status is 1."""
    other = tmp_path / "other"
    other.write_text("#!/bin/sh\necho otherwise\n")
    other.chmod(0o755)
    done = script("times.py", program, other, "--runs", 1, "--jobs", "b04_s1", "--commands", "check")
    assert (done.returncode, done.stdout.rstrip().endswith("DIFFER")) == (1, True)
