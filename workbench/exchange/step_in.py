"""`brake import`: a part file of a folded CAD body, read by Open CASCADE."""
from __future__ import annotations

import argparse
import hashlib
from dataclasses import dataclass
from pathlib import Path
from typing import Any

from .body_faces import read_face
from .endings import Ends, WrongWords, run
from .face_tree import Tree, make_tree
from .kernel import KernelStopped, run_kernel
from .lengths import shown
from .part_file import is_name, part_text, read_file, schema_line, shown_faces
from .sheet_body import recognise
from .store import keep_inputs, store_whole

USAGE = "usage: brake import BODY.step OUT.toml [--material NAME] [--root N] [--fill] [--list] [--solid N]"
LONGEST = 64 * 1024 * 1024
"""Bytes of a STEP file that are read."""
SECONDS = 60
"""After which the kernel is ended."""
HEAD, TAIL = b"ISO-10303-21", b"END-ISO-10303-21"
WITHIN = 4096
"""Head and end of the text are looked for within so many bytes."""


@dataclass(frozen=True)
class Wish:
    """What the words ask for; `out` is None where only a list is asked for."""

    body: Path
    out: Path | None
    material: str
    root: int | None
    solid: int | None
    fill: bool
    is_list: bool


class _Parser(argparse.ArgumentParser):
    def error(self, message: str) -> None:  # type: ignore[override]
        raise WrongWords(message)


def read_number(word: str) -> int:
    """A whole number of at most four digits."""
    if not (word.isascii() and word.isdigit() and len(word) <= 4):
        raise argparse.ArgumentTypeError(f"'{word[:40]}' isn't a whole number, 0 to 9999")
    return int(word)


def read_words(words: list[str]) -> Wish:
    """The meaning of the words. Raises WrongWords."""
    parser = _Parser(prog="brake import", add_help=False, allow_abbrev=False)
    parser.add_argument("files", nargs="*")
    parser.add_argument("--material", default="UNKNOWN")
    for option in ("--root", "--solid"):
        parser.add_argument(option, type=read_number)
    for option in ("--fill", "--list"):
        parser.add_argument(option, action="store_true")
    got = parser.parse_intermixed_args(words)
    if "" in got.files or not (len(got.files) == 2 or (got.list and len(got.files) == 1)):
        raise WrongWords(f"{len(got.files)} file names in place of two")
    if not is_name(got.material):
        raise WrongWords(f"--material '{got.material[:40]}' isn't a name: 1 to 24 visible ASCII characters, no blank")
    out = Path(got.files[1]) if len(got.files) == 2 else None
    return Wish(Path(got.files[0]), out, got.material, got.root, got.solid, got.fill, got.list)


def keep_step(data: bytes, name: Path) -> None:
    """Refuses what isn't a whole STEP text before the kernel sees it. Raises Ends."""
    if not data:
        raise Ends(f"{name} is empty")
    if HEAD not in data[:WITHIN]:
        raise Ends(f"{name} isn't a STEP file: 'ISO-10303-21' isn't at its head")
    if len(data) > LONGEST:
        raise Ends(f"{name} is longer than the {LONGEST:,} bytes that are read: export the one part by itself")
    if TAIL not in data[-WITHIN:]:
        raise Ends(f"{name} is cut off: 'END-ISO-10303-21' isn't at its end")


def ask_kernel(path: Path, solid: int) -> dict[str, Any]:
    """The solids of a STEP file and the faces of one. Raises Ends."""
    try:
        return run_kernel("read", {"path": str(path.resolve()), "solid": solid}, SECONDS)
    except KernelStopped as fault:
        raise Ends(f"{path} can't be read: {fault}") from None


def listed(solids: list[list[float]]) -> list[str]:
    """A line for each solid: its number and the box around it, in mm."""
    lines = []
    for number, box in enumerate(solids):
        sizes = " x ".join(f"{high - low:.3f}" for low, high in zip(box[:3], box[3:]))
        lines.append(f"solid {number} {sizes} mm from {', '.join(f'{low + 0.0:.3f}' for low in box[:3])}")
    return lines


def read_tree(wish: Wish) -> tuple[Tree | None, list[str], str]:
    """The part of the body, or None for a list; the list of solids; and the file's checksum. Raises Ends."""
    data = read_file(wish.body, LONGEST)
    keep_step(data, wish.body)
    answer = ask_kernel(wish.body, wish.solid or 0)
    solids = answer["solids"]
    if not solids:
        what = "surfaces and no solid" if answer["surfaces"] else "no solid"
        raise Ends(f"{wish.body} has {what}: export the part as a solid")
    if wish.is_list:
        return None, listed(solids), ""
    if len(solids) > 1 and wish.solid is None:
        raise Ends(f"{wish.body} has {len(solids)} solids: --list shows them, --solid N takes one")
    if (wish.solid or 0) >= len(solids):
        raise Ends(f"--solid {wish.solid}: {wish.body} has the solids 0 to {len(solids) - 1}")
    sheet = recognise([read_face(face) for face in answer["faces"]], wish.fill)
    return make_tree(sheet, wish.material, wish.root, wish.fill), [], hashlib.sha256(data).hexdigest()


def import_body(wish: Wish) -> list[str]:
    """Stores the part file of a body, and gives the lines that say what was found. Raises Ends."""
    if wish.out is not None:
        keep_inputs(wish.out, [wish.body])
    tree, lines, checksum = read_tree(wish)
    if tree is None or wish.out is None:
        return lines
    part = tree.part
    comments = [f"Of {wish.body.name}, sha256 {checksum}.", *tree.notes]
    store_whole(wish.out, part_text(part, comments, schema_line(wish.out, "part")).encode())
    head = (f"thickness {shown(part.thickness)} mm, inner radius {shown(part.radius)} mm, {len(part.faces) - 1} bends; "
            "outside sizes in mm")
    return [head, *shown_faces(part), *(f"note: {note}" for note in tree.notes)]


def command(words: list[str]) -> int:
    """Runs `brake import` on its words. Raises Ends."""
    print("\n".join(import_body(read_words(words))))
    return 0


def main(words: list[str]) -> int:
    """Runs `brake import` and gives its exit status: 0 stored, 2 faulty words, 3 a body that isn't of this kind, 6 a file
    can't be read or stored, 70 an input would be stored over."""
    return run("import", USAGE, command, words)
