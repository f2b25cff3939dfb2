"""`brake folded`: the folded body of a part with true radii, as STEP, so that it can be laid over the drawing in CAD."""
from __future__ import annotations

import tempfile
from dataclasses import asdict
from pathlib import Path
from typing import Any

from .body_of_part import Body, body_of
from .endings import FILES, REFUSED, Ends, WrongWords, run
from .kernel import write_body
from .part_file import LONGEST, Part, read_file, read_part
from .printed_blank import ask, blank_of_text
from .store import keep_inputs, store_whole

USAGE = "usage: brake folded PART TOOLS OUT.step"
LEAST_SHARED = 1e-3
"""Cubic millimetres in which plates may lie in one another before it is told."""


def as_data(body: Body) -> dict[str, Any]:
    """A body as the kernel's child takes it."""
    return {"boxes": body.boxes, "rings": [asdict(ring) for ring in body.rings]}


def accepted_part(part: Path, tools: Path) -> tuple[Part, int]:
    """A part of which the program prints the blank, and its half deduction q. Raises Ends where it doesn't."""
    data, table = read_file(part, LONGEST), read_file(tools, LONGEST)
    with tempfile.TemporaryDirectory(prefix="brake-") as place:
        folder = Path(place)
        (folder / "part.toml").write_bytes(data)
        (folder / "tools.toml").write_bytes(table)
        done = ask(["blank", "part.toml", "tools.toml"], folder)
    if done.status != 0:
        status = done.status if done.status == REFUSED else FILES
        raise Ends(f"the program prints no blank of {part}: 'brake blank {part} {tools}' says why", status,
                   "\n".join(done.lines))
    try:
        read = read_part(data)
    except ValueError as fault:
        raise Ends(f"{part}: the program takes a file that Python's TOML reader doesn't: {fault}", FILES) from None
    return read, half_deduction(read, done.printed, str(part))


def half_deduction(part: Part, printed: bytes, name: str) -> int:
    """q of the printed blank: what face 1 loses at its bend, and at its far side where it is bent there too. Of a part
    without bends it is 0."""
    if len(part.faces) == 1:
        return 0
    blank, face = blank_of_text(printed, name), part.faces[1]
    flat = blank.faces[1]
    along_y = face.side in "NS"
    length = flat.y1 - flat.y0 if along_y else flat.x1 - flat.x0
    sides = 1 + any(child.on == face.name and child.side == "N" for child in part.faces)
    return (face.length - length) // sides


def store_folded(part: Path, tools: Path, out: Path) -> list[str]:
    """Stores the folded body of a part, and gives the lines that say what it is. Raises Ends."""
    keep_inputs(out, [part, tools])
    read, q = accepted_part(part, tools)
    data, shared = write_body(as_data(body_of(read, q)))
    store_whole(out, data)
    lines = [f"{out}: {len(read.faces)} faces, {len(read.faces) - 1} bends, in mm"]
    if shared > LEAST_SHARED:
        lines.append(f"plates lie in one another, in {shared:.3f} mm3")
    return lines


def command(words: list[str]) -> int:
    """Runs `brake folded` on its words. Raises Ends."""
    if len(words) != 3 or any(word == "" or word.startswith("--") for word in words):
        raise WrongWords("a part file, a tools file and the file that is to be stored are needed, and nothing else")
    print("\n".join(store_folded(*map(Path, words))))
    return 0


def main(words: list[str]) -> int:
    """Runs `brake folded` and gives its exit status: 0 stored, 2 faulty words, 3 a file is refused, 6 a file can't be
    read or stored or the kernel failed, 70 no program, or an input would be stored over."""
    return run("folded", USAGE, command, words)
