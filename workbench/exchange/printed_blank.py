"""The blank that is to be drawn: of a certificate, which is checked first, or of what `blank` or `plan` printed."""
from __future__ import annotations

import re
import subprocess
import sys
import tempfile
from pathlib import Path

from ..blank import Blank, read_blank
from ..program import NoProgram, Run, find_program, run_program
from .endings import CERTIFICATE, FILES, LAUNCHER, REFUSED, Ends
from .part_file import Face, Part, part_text, quoted, read_file

LONGEST_BLANK, LONGEST_CERTIFICATE = 1_048_576, 1_073_741_824
SECONDS = 600
"""After which a run of the program is ended."""
NUMBER = r"-?(?:0|[1-9]\d{0,9})"
LINES = {
    "size": re.compile(rf"size {NUMBER} {NUMBER}\Z", re.ASCII),
    "face": re.compile(rf"face {NUMBER} [!-~]{{1,24}}(?: {NUMBER}){{4}}\Z", re.ASCII),
    "bend": re.compile(rf"bend(?: {NUMBER}){{5}} (?:up|down)\Z", re.ASCII),
}
MARK = b"brake-cert "
"""A certificate begins so."""


def read_input(name: str) -> bytes:
    """The bytes of a file, or of standard input for `-`. Raises Ends."""
    if name != "-":
        data = read_file(Path(name), LONGEST_CERTIFICATE)
    else:
        data = sys.stdin.buffer.read(LONGEST_CERTIFICATE + 1)
    longest = LONGEST_CERTIFICATE if data.startswith(MARK) else LONGEST_BLANK
    if len(data) > longest:
        raise Ends(f"{called(name)} is longer than the {longest:,} bytes that are read")
    return data


def called(name: str) -> str:
    """How a sentence calls the input."""
    return "standard input" if name == "-" else name


def find_blank(name: str) -> Blank:
    """The blank of a certificate or of a printed text. Raises Ends."""
    data = read_input(name)
    if data.startswith(MARK):
        return blank_of_certificate(data, called(name))
    return blank_of_text(data, called(name))


def blank_of_text(data: bytes, name: str) -> Blank:
    """The blank of what was printed, whose lines stand at the head of the text. Raises Ends, which names the line."""
    try:
        rows = data.decode("ascii").splitlines()
    except UnicodeDecodeError as fault:
        raise Ends(f"{name} is neither a certificate nor what 'brake blank' prints: byte {fault.start + 1} "
                   "isn't ASCII text") from None
    if rows[:1] != ["blank"]:
        raise Ends(f"{name} is neither a certificate nor what 'brake blank' prints: its first line isn't 'blank'")
    faces = bends = 0
    for number, row in enumerate(rows[1:], 2):
        keyword = row.split(" ", 1)[0]
        form = LINES.get(keyword)
        if form is None or (keyword == "size") != (number == 2):
            break
        if not form.match(row):
            raise Ends(f"{name}, line {number}: '{row[:80]}' isn't a line '{keyword}' as 'brake blank' prints it")
        faces, bends = faces + (keyword == "face"), bends + (keyword == "bend")
    blank = read_blank(data.decode("ascii"))
    if not 1 <= faces <= 13 or bends != faces - 1 or sorted(blank.bends) != list(range(1, faces)):
        raise Ends(f"{name} is cut off or changed: it has {faces} faces and {bends} bends")
    keep_shape(blank, name)
    return blank


def keep_shape(blank: Blank, name: str) -> None:
    """Refuses rectangles without an inside and bend lines that are askew, which the program never prints."""
    for face in blank.faces:
        if face.x0 >= face.x1 or face.y0 >= face.y1:
            raise Ends(f"{name}: face '{face.name}' has no inside: {face.x0} {face.y0} {face.x1} {face.y1}")
    for bend in blank.bends.values():
        if (bend.x0 == bend.x1) == (bend.y0 == bend.y1):
            raise Ends(f"{name}: bend {bend.number} isn't a line along x or y")


def blank_of_certificate(data: bytes, name: str) -> Blank:
    """The blank of a certificate that the program accepts. Raises Ends."""
    with tempfile.TemporaryDirectory(prefix="brake-") as place:
        folder = Path(place)
        (folder / "run.cert").write_bytes(data)
        done = ask(["check", "run.cert"], folder)
        if done.status not in (0, 1):
            status = CERTIFICATE if done.status == CERTIFICATE else FILES
            raise Ends(f"{name} isn't a good certificate: nothing is drawn", status, "\n".join(done.lines))
        part, q = part_of_certificate(data)
        (folder / "part.toml").write_text(part_text(part, []))
        (folder / "tools.toml").write_text(f"[[allow]]\nmaterial = {quoted(part.material)}\n"
                                           f"thickness = {part.thickness}\nradius = {part.radius}\nq = {q}\n")
        done = ask(["blank", "part.toml", "tools.toml"], folder)
        if done.status != 0:
            raise Ends(f"{name}: the program refuses the blank of its part", REFUSED, "\n".join(done.lines))
        return blank_of_text(done.printed, name)


def ask(words: list[str], folder: Path) -> Run:
    """Runs the program. Raises Ends where there is none, or where it takes too long."""
    try:
        return run_program(find_program(), words, folder=folder, seconds=SECONDS)
    except NoProgram as fault:
        raise Ends(str(fault), LAUNCHER) from None
    except subprocess.TimeoutExpired:
        raise Ends(f"'brake {words[0]}' didn't end within {SECONDS} s: nothing is drawn", FILES) from None


def part_of_certificate(data: bytes) -> tuple[Part, int]:
    """The part of an accepted certificate, and its half deduction q in micrometres."""
    faces: list[Face] = []
    head: list[str] = []
    for line in data.split(b"\n", 40):
        words = line.decode("utf-8", "replace").split(" ")
        if words[0] == "part":
            head = words[1:]
        elif words[0] == "face" and not faces:
            faces.append(Face(words[1], int(words[2]), int(words[3])))
        elif words[0] == "face":
            name, on, side, at, width, length, way = words[1:]
            faces.append(Face(name, int(width), int(length), faces[int(on)].name, side, int(at), way))
        elif faces:
            break
    return Part(head[0], int(head[1]), int(head[2]), tuple(faces)), int(head[3])
