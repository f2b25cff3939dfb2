"""A part as its file has it: read from TOML, and written as a text with the reasons for it as comments."""
from __future__ import annotations

import os
import tomllib
from dataclasses import dataclass
from pathlib import Path
from typing import Any

from .endings import FILES, Ends
from .lengths import shown

LONGEST = 1_048_576
"""Bytes of a part file that are read."""
MOST_FACES = 13
LEAST, GREATEST = 1, 10_000_000
"""Range of a face's size in micrometres."""
GREATEST_THICKNESS = GREATEST_RADIUS = 50_000
UP, DOWN = "up", "down"


@dataclass(frozen=True)
class Face:
    """A face with its outside sizes in micrometres; the root stands on nothing and has no side."""

    name: str
    width: int
    length: int
    on: str = ""
    side: str = ""
    at: int = 0
    dir: str = ""


@dataclass(frozen=True)
class Part:
    """Material, thickness and inner radius in micrometres, and the faces, the root first."""

    material: str
    thickness: int
    radius: int
    faces: tuple[Face, ...]


def is_name(word: str) -> bool:
    """Whether a word is a name of the files: 1 to 24 visible ASCII characters, without a blank."""
    return 1 <= len(word) <= 24 and all("!" <= c <= "~" for c in word)


def schema_line(out: Path, kind: str) -> str:
    """The line by which an editor checks the file while one types; nothing where no schema lies beside the package."""
    schema = Path(__file__).resolve().parents[2] / "schemas" / f"{kind}.schema.json"
    return f"#:schema {os.path.relpath(schema, out.resolve().parent)}\n" if schema.is_file() else ""


def quoted(text: str) -> str:
    """A text as a TOML string."""
    return '"' + text.replace("\\", "\\\\").replace('"', '\\"') + '"'


def part_text(part: Part, comments: list[str], schema: str = "") -> str:
    """The part file's text; each comment is a line of its own at the head."""
    rows = [f"# {''.join(c if c.isprintable() else '?' for c in line)}" for line in comments]
    rows += [f"material = {quoted(part.material)}", f"thickness = {part.thickness}", f"radius = {part.radius}"]
    for face in part.faces:
        rows += ["", "[[face]]", f"name = {quoted(face.name)}"]
        if face.on:
            rows += [f"on = {quoted(face.on)}", f"side = {quoted(face.side)}", f"at = {face.at}"]
        rows += [f"width = {face.width}", f"length = {face.length}"]
        if face.on:
            rows.append(f"dir = {quoted(face.dir)}")
    return schema + "\n".join(rows) + "\n"


def part_of_table(table: dict[str, Any]) -> Part:
    """The part of a TOML table that the program has accepted."""
    faces = tuple(Face(row["name"], row["width"], row["length"], row.get("on", ""), row.get("side", ""),
                       row.get("at", 0), row.get("dir", "")) for row in table["face"])
    return Part(table["material"], table["thickness"], table["radius"], faces)


def read_file(name: Path, longest: int) -> bytes:
    """A file's bytes, at most one more than `longest`. Raises Ends where it can't be read."""
    try:
        with open(name, "rb") as file:
            return file.read(longest + 1)
    except OSError as fault:
        raise Ends(f"{name} can't be read: {fault.strerror}", FILES) from fault


def read_part(data: bytes) -> Part:
    """The part of a file's bytes that the program has accepted."""
    return part_of_table(tomllib.loads(data.decode("utf-8-sig")))


def shown_faces(part: Part) -> list[str]:
    """A line for each face: its number, its name, where it stands, and its outside sizes in mm."""
    lines = []
    for number, face in enumerate(part.faces):
        sizes = f"{shown(face.width)} x {shown(face.length)}"
        where = f" on {face.on} {face.side} at {shown(face.at)}, {face.dir}" if face.on else ""
        lines.append(f"face {number} {face.name} {sizes}{where}")
    return lines
