"""`brake new`: a part file of a shape and its outside sizes, or a template for a machine or a rack of tools."""
from __future__ import annotations

import argparse
from dataclasses import dataclass
from pathlib import Path

from .endings import WrongWords, run
from .lengths import shown, typed_length
from .part_file import (GREATEST, GREATEST_RADIUS, GREATEST_THICKNESS, LEAST, Part, is_name, part_text, schema_line,
                        shown_faces)
from .shapes import SHAPES, Shape, Sheet, gap_of
from .store import keep_inputs, store_whole

TEMPLATES = ("machine", "tools")
USAGE = "\n".join([
    "usage: brake new SHAPE SIZES.. [--length L] [--gap G] [--material M] [--thickness T] [--radius R] OUT.toml",
    "usage: brake new machine|tools OUT.toml",
    "  sizes are outside sizes in mm, joined by x: brake new hat 60x40x25 --length 500 --thickness 1.5 hat.toml",
    *(f"  {name:<7}{'x'.join(size.upper() for size in shape.sizes)}{' --length L' if shape.is_profile else ''}"
      for name, shape in SHAPES.items()),
])


@dataclass(frozen=True)
class Wish:
    """What the words ask for: a shape with its sizes in micrometres, of a material and a sheet, into a file."""

    shape: str
    sizes: tuple[int, ...]
    material: str
    sheet: Sheet
    out: Path


class _Parser(argparse.ArgumentParser):
    def error(self, message: str) -> None:  # type: ignore[override]
        raise WrongWords(message)


def read_sizes(name: str, shape: Shape, words: list[str]) -> tuple[int, ...]:
    """The sizes of `60x40x25` or `60 40 25`. Raises WrongWords."""
    sizes = [word for joined in words for word in joined.lower().split("x")]
    if len(sizes) != len(shape.sizes):
        raise WrongWords(f"{name} has {len(shape.sizes)} sizes, {' x '.join(shape.sizes)}: {len(sizes)} are given")
    return tuple(typed_length(size, what, LEAST, GREATEST) for size, what in zip(sizes, shape.sizes))


def read_sheet(got: argparse.Namespace, shape: Shape) -> Sheet:
    """Thickness, radius, gap and length of the options. Raises WrongWords."""
    thickness = typed_length(got.thickness, "--thickness", 2, GREATEST_THICKNESS)
    if thickness % 2:
        raise WrongWords(f"--thickness {got.thickness} mm is an odd number of micrometres: it has to be even")
    radius = typed_length(got.radius or got.thickness, "--radius", 1, GREATEST_RADIUS)
    gap = typed_length(got.gap, "--gap", 0, GREATEST) if got.gap else gap_of(thickness, radius)
    if shape.is_profile and got.length is None:
        raise WrongWords("--length is missing: how long the profile is along its bends, in mm")
    if not shape.is_profile and got.length is not None:
        raise WrongWords("--length is for profiles; here the first size is the length")
    if shape.is_profile and got.gap:
        raise WrongWords("--gap is for shapes with walls all around; a profile has no corners")
    along = typed_length(got.length, "--length", LEAST, GREATEST) if got.length else 0
    return Sheet(thickness, radius, gap, along)


def read_words(words: list[str]) -> Wish:
    """The meaning of the words for a shape. Raises WrongWords."""
    parser = _Parser(prog="brake new", add_help=False, allow_abbrev=False)
    parser.add_argument("words", nargs="+")
    for option in ("--length", "--gap", "--radius"):
        parser.add_argument(option)
    parser.add_argument("--thickness", default="1.5")
    parser.add_argument("--material", default="DC01")
    got = parser.parse_intermixed_args(words)
    name, *rest = got.words
    shape = SHAPES.get(name.lower())
    if shape is None:
        raise WrongWords(f"no shape is called '{name[:40]}': {', '.join([*SHAPES, *TEMPLATES])}")
    if len(rest) < 2:
        raise WrongWords("sizes and the name of the file are needed")
    if not is_name(got.material):
        raise WrongWords(f"--material '{got.material[:40]}' isn't a name: 1 to 24 visible ASCII characters, no blank")
    sizes = read_sizes(name, shape, rest[:-1])
    return Wish(name.lower(), sizes, got.material, read_sheet(got, shape), Path(rest[-1]))


def make_part(wish: Wish) -> Part:
    """The part of a wish. Raises WrongWords where the sizes leave no room for a face."""
    faces = SHAPES[wish.shape].make(wish.sizes, wish.sheet)
    return Part(wish.material, wish.sheet.thickness, wish.sheet.radius, tuple(faces))


def told_sizes(wish: Wish) -> str:
    """The shape and its sizes in words, as a comment says them."""
    sizes = ", ".join(f"{what} {shown(size)}" for what, size in zip(SHAPES[wish.shape].sizes, wish.sizes))
    along = f", {shown(wish.sheet.along)} long" if wish.sheet.along else ""
    return f"{wish.shape}: {sizes}{along}; outside sizes in mm"


def new_part(wish: Wish) -> list[str]:
    """Stores the part file of a wish, and gives the lines that show what was made. Raises Ends."""
    keep_inputs(wish.out, [], is_new=True)
    part = make_part(wish)
    comments = [told_sizes(wish)]
    if not wish.sheet.along:
        gap = shown(wish.sheet.gap)
        comments.append(f"Walls begin {gap} mm from the corners: at least q, where the neighbour is bent too.")
    store_whole(wish.out, part_text(part, comments, schema_line(wish.out, "part")).encode())
    head = f"{part.material}, {shown(part.thickness)} mm, inner radius {shown(part.radius)} mm; outside sizes in mm"
    return [told_sizes(wish), "", *SHAPES[wish.shape].picture, "", head, *shown_faces(part)]


def new_template(kind: str, out: Path) -> list[str]:
    """Stores the template of a machine or tools file, and gives a line that says what to do with it. Raises Ends."""
    keep_inputs(out, [], is_new=True)
    text = (Path(__file__).resolve().parent / "templates" / f"{kind}.toml").read_text(encoding="utf-8")
    store_whole(out, (schema_line(out, kind) + text).encode())
    return [f"{out}: a template, whose numbers are to be replaced by those of your shop"]


def command(words: list[str]) -> int:
    """Runs `brake new` on its words. Raises Ends."""
    if words[:1] and words[0] in TEMPLATES:
        if len(words) != 2 or words[1].startswith("--"):
            raise WrongWords(f"'{words[0]}' takes the name of the file that is to be stored, and nothing else")
        lines = new_template(words[0], Path(words[1]))
    else:
        lines = new_part(read_words(words))
    print("\n".join(lines))
    return 0


def main(words: list[str]) -> int:
    """Runs `brake new` and gives its exit status: 0 stored, 2 faulty words, 6 not stored, 70 the file is there."""
    return run("new", USAGE, command, words)
