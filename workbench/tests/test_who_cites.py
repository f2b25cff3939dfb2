"""tools/who-cites lists the files that import a definition."""
from __future__ import annotations

import re
import subprocess
from pathlib import Path

ROOT = Path(__file__).resolve().parents[2]


def who_cites(*words: str) -> subprocess.CompletedProcess[str]:
    """What the tool says to these words."""
    return subprocess.run([ROOT / "tools/who-cites", *words], capture_output=True, text=True, timeout=120, check=False)


def test_the_files_are_listed_by_crate() -> None:
    """The files are those whose text has an import of the name, and the last line counts them."""
    done = who_cites("check_command.IsCheckAnswer")
    files = set(re.findall(r"^  (crates/\S+)$", done.stdout, re.M))
    wanted = {
        str(path.relative_to(ROOT))
        for path in (ROOT / "crates").rglob("*")
        if path.suffix in (".antt", ".rt") and "out" not in path.relative_to(ROOT).parts
        and re.search(r"use Rattle\.check_command\.specs\.CheckAnswer\.\{[^}]*\bIsCheckAnswer\b", path.read_text())
    }
    assert done.returncode == 0 and files == wanted and "crates/brake_commands/specs/Commands.antt" in files
    assert "check_command: defined in crates/check_command/specs/CheckAnswer.antt" in done.stdout
    assert done.stdout.rstrip().endswith(f"{len(files)} files in {len({name.split('/')[1] for name in files})} crates")


def test_a_name_of_several_crates() -> None:
    """Of a name that several crates define all are told, and of CRATE.NAME one."""
    assert who_cites("no_plan_line").stdout.count(": defined in ") == 3
    assert who_cites("brake_draw.no_plan_line").stdout.count(": defined in ") == 1


def test_faulty_words() -> None:
    """No word, or a name that nothing defines, is refused in one line with the status 2."""
    for words in ((), ("NoSuchName",), ("cert_check.no_plan_line",), ("a", "b"), ("--help",)):
        done = who_cites(*words)
        assert done.returncode == 2 and not done.stdout and done.stderr.count("\n") == 1
