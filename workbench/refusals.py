"""What a refusal of the program says in the launcher's words, and at which field of which file it stands."""
from __future__ import annotations

import os
import re
import subprocess
from dataclasses import dataclass
from pathlib import Path

PART_KEYS = {1: "material", 2: "thickness", 3: "radius", 4: "face", 5: "name", 6: "on", 7: "side", 8: "at", 9: "width",
             10: "length", 11: "dir"}
HERE = Path(__file__).resolve().parent


@dataclass(frozen=True)
class Place:
    """Where a refusal points: the kind of file, the faces by number, and the key, each where the line names one."""

    file: str
    faces: tuple[int, ...] = ()
    key: str | None = None
    also: tuple[str, ...] = ()

    def as_data(self) -> dict[str, object]:
        """The place for the page."""
        return {"file": self.file, "faces": list(self.faces), "key": self.key, "also": list(self.also)}


def find_place(line: str) -> Place | None:
    """The place that a line `refused ..` names, by docs/formats.md; None of any other line."""
    words = line.split()
    if len(words) < 3 or words[0] != "refused":
        return None
    numbers = [int(word) for word in words[2:] if word.lstrip("-").isdigit()]
    if words[1] == "part" and numbers:
        return place_in_part(numbers)
    if words[1] == "job" and numbers[:1] == [1]:
        return Place("part", key="radius", also=("material", "thickness"))
    if words[1] == "job" and numbers[:1] == [2] and len(numbers) > 2:
        return Place("part", tuple(numbers[2:]), {1: "length", 2: "at"}.get(numbers[1]))
    return Place("machine" if words[1] == "job" else words[1])


def place_in_part(numbers: list[int]) -> Place:
    """The place of `refused part NUMBERS`."""
    kind = numbers[0]
    if kind == 2 and len(numbers) > 2:
        return Place("part", (numbers[1] - 1,) if numbers[1] else (), PART_KEYS.get(numbers[2]))
    if kind == 3 and len(numbers) > 1:
        return Place("part", (numbers[1] - 1,) if numbers[1] else ())
    return Place("part", tuple(numbers[1:2]), {8: "name", 6: "on", 7: "thickness"}.get(kind))


def scripts_of_launcher() -> Path | None:
    """The folder of the launcher's scripts: in the repository, or of an installed program."""
    for folder in (HERE.parent / "launcher", HERE.parent.parent.parent / "lib" / "brake"):
        if (folder / "words.bash").is_file():
            return folder
    return None


def say_in_words(program: Path, words: list[str], status: int, printed: str, folder: Path) -> list[str]:
    """The launcher's lines on a run of `program WORDS` in a folder that ended with this status and printed this."""
    scripts = scripts_of_launcher()
    if scripts is None or status == 0:
        return []
    told = subprocess.run(["bash", os.fspath(HERE / "say.bash"), os.fspath(scripts), os.fspath(program), str(status),
                           printed.split("\n", 1)[0], *words], cwd=folder, stdin=subprocess.DEVNULL,
                          capture_output=True, timeout=20, check=False)
    return told.stderr.decode("utf-8", "replace").splitlines()


def as_millimetres(match: re.Match[str]) -> str:
    """A number of micrometres as the page shows it."""
    return show_length(int(match[1]))


def show_length(micrometres: int) -> str:
    """A length in millimetres, exact, with its unit: 84243 is '84.243 mm'."""
    whole, rest = divmod(abs(micrometres), 1000)
    digits = f"{whole}.{rest:03d}".rstrip("0").rstrip(".")
    return f"{'-' if micrometres < 0 else ''}{digits} mm"


def plain(line: str, names: dict[str, str]) -> str:
    """A line of the launcher as the page shows it: files by the user's names, no page of a manual, and millimetres."""
    line = line.removeprefix("brake: ")
    line = re.sub(r" ?\((?:[^()]*/)?[a-zA-Z_]+\.md[^()]*\)$", "", line)
    line = re.sub(r"; [^;()]*\.md[^()]*(?=\)$)", "", line)
    line = re.sub(r"^part\.toml(, line \d+)?: ", "", line)
    for old, new in names.items():
        line = line.replace(old, new)
    if "micrometres" not in line and re.search(r"= -?\d|which is \d|thickness \d", line):
        line = re.sub(r"(?<![\w.,])(-?\d{3,8})(?![\w.,]\d)(?!\w)", as_millimetres, line)
    return line
