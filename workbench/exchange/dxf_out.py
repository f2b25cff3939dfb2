"""`brake dxf`: the blank as DXF for the laser, with its bend lines."""
from __future__ import annotations

import argparse
import io
from dataclasses import dataclass
from pathlib import Path

from ..blank import BendLine, Blank
from .endings import WrongWords, run
from .lengths import shown, typed_length
from .outline import Cut, Point, Segment, cut_of, twice_area
from .printed_blank import find_blank
from .store import keep_inputs, store_whole

USAGE = "usage: brake dxf CERT|BLANK OUT.dxf [--relief WIDTH DEPTH] [--lines] [--release R12|R2000]"
CUT, BEND_UP, BEND_DOWN, TEXT = "CUT", "BEND_UP", "BEND_DOWN", "TEXT"
LAYERS = ((CUT, 7, "CONTINUOUS"), (BEND_UP, 3, "DASHED"), (BEND_DOWN, 1, "DASHDOT"), (TEXT, 8, "CONTINUOUS"))
"""Name, colour by AutoCAD's index, and line type of each layer."""
LINE_TYPES = (("DASHED", "up", [6.0, 4.0, -2.0]), ("DASHDOT", "down", [8.0, 4.0, -2.0, 0.0, -2.0]))
RELEASES = ("R12", "R2000")
GREATEST_RELIEF = 100_000
"""Of a relief's width and depth, in micrometres."""
TALLEST, LOWEST = 5.0, 0.5
"""Height of letters in mm."""


@dataclass(frozen=True)
class Wish:
    """What the words ask for; the relief as (width, depth) in micrometres."""

    source: str
    out: Path
    relief: tuple[int, int] | None = None
    has_lines: bool = False
    release: str = "R12"


class _Parser(argparse.ArgumentParser):
    def error(self, message: str) -> None:  # type: ignore[override]
        raise WrongWords(message)


def read_words(words: list[str]) -> Wish:
    """The meaning of the words. Raises WrongWords."""
    parser = _Parser(prog="brake dxf", add_help=False, allow_abbrev=False)
    parser.add_argument("files", nargs="*")
    parser.add_argument("--relief", nargs=2)
    parser.add_argument("--lines", action="store_true")
    parser.add_argument("--release", choices=RELEASES, default="R12")
    got = parser.parse_intermixed_args(words)
    if len(got.files) != 2 or "" in got.files:
        raise WrongWords(f"{len(got.files)} file names in place of two; standard input is '-'")
    relief = None
    if got.relief:
        width, depth = (typed_length(word, f"--relief's {what}", 1, GREATEST_RELIEF)
                        for word, what in zip(got.relief, ("width", "depth")))
        relief = (width, depth)
    return Wish(got.files[0], Path(got.files[1]), relief, got.lines, got.release)


def dxf_text(blank: Blank, cut: Cut, release: str = "R12", has_lines: bool = False) -> bytes:
    """The DXF file of a blank and its cut, in millimetres; the same bytes each time."""
    import ezdxf

    ezdxf.options.write_fixed_meta_data_for_testing = True
    drawing = ezdxf.new(release, units=ezdxf.units.MM)
    drawing.header["$INSUNITS"] = ezdxf.units.MM
    drawing.header["$MEASUREMENT"] = 1
    for name, way, pattern in LINE_TYPES:
        if name not in drawing.linetypes:
            drawing.linetypes.add(name, pattern, description=f"bend {way}")
    for name, colour, line_type in LAYERS:
        drawing.layers.add(name, color=colour, linetype=line_type)
    space = drawing.modelspace()
    space.reset_extents((0.0, 0.0, 0.0), (*in_mm(blank.size), 0.0))
    for loop in cut.loops:
        draw_loop(space, loop, release, has_lines)
    for slit in cut.slits:
        draw_line(space, slit, CUT)
    for number, segments in cut.bends.items():
        for segment in segments:
            draw_line(space, segment, BEND_UP if blank.bends[number].is_up else BEND_DOWN)
    draw_texts(space, blank)
    text = io.StringIO()
    drawing.write(text)
    return text.getvalue().encode(drawing.output_encoding, "dxfreplace")


def in_mm(point: Point) -> tuple[float, float]:
    """A point of micrometres in millimetres."""
    return point[0] / 1000, point[1] / 1000


def draw_loop(space: object, loop: tuple[Point, ...], release: str, has_lines: bool) -> None:
    """One closed polyline, or a line for each of its sides."""
    if has_lines:
        for side in zip(loop, loop[1:] + loop[:1]):
            draw_line(space, side, CUT)
        return
    add = space.add_polyline2d if release == "R12" else space.add_lwpolyline  # type: ignore[attr-defined]
    add([in_mm(point) for point in loop], close=True, dxfattribs={"layer": CUT})


def draw_line(space: object, segment: Segment, layer: str) -> None:
    """One line."""
    space.add_line(*(in_mm(point) for point in segment), dxfattribs={"layer": layer})  # type: ignore[attr-defined]


def draw_texts(space: object, blank: Blank) -> None:
    """Number, direction and angle of each bend beside the middle of its line, and the name of face 0 in its middle."""
    for bend in blank.bends.values():
        way = "up" if bend.is_up else "down"
        x, y = in_mm(((bend.x0 + bend.x1) // 2, (bend.y0 + bend.y1) // 2))
        length = (abs(bend.x1 - bend.x0) + abs(bend.y1 - bend.y0)) / 1000
        draw_text(space, f"{bend.number} {way} 90", (x, y), 0.0 if bend.is_along_x else 90.0, length)
    root = blank.faces[0]
    middle = in_mm(((root.x0 + root.x1) // 2, (root.y0 + root.y1) // 2))
    draw_text(space, literal(root.name), middle, 0.0, (root.x1 - root.x0) / 1000)


def draw_text(space: object, text: str, at: tuple[float, float], angle: float, room: float) -> None:
    """A text with its lower middle at a point, so high that it fits into the room along it."""
    height = max(LOWEST, min(TALLEST, room / len(text)))
    lift = height / 2
    x, y = (at[0], at[1] + lift) if angle == 0.0 else (at[0] - lift, at[1])
    from ezdxf.enums import TextEntityAlignment

    center = TextEntityAlignment.CENTER
    look = {"layer": TEXT, "height": round(height, 3), "rotation": angle}
    space.add_text(text, dxfattribs=look).set_placement((x, y), align=center)  # type: ignore[attr-defined]


def literal(name: str) -> str:
    """A name as DXF's text shows it: '^' begins a mark there, and so does '%%', which gets a blank between."""
    while "%%" in name:
        name = name.replace("%%", "% %")
    return name.replace("^", "^ ")


def draw_blank(blank: Blank, wish: Wish) -> list[str]:
    """Stores the DXF of a blank, and gives the line that says what is in it. Raises Ends."""
    cut = cut_of(blank, wish.relief)
    store_whole(wish.out, dxf_text(blank, cut, wish.release, wish.has_lines))
    area = sum(map(twice_area, cut.loops)) / 2e6
    holes = sum(twice_area(loop) < 0 for loop in cut.loops)
    return [f"{shown(blank.size[0])} x {shown(blank.size[1])} mm, {area:.3f} mm2: loops {len(cut.loops)}, "
            f"of them inner {holes}, slits {len(cut.slits)}, bends {len(blank.bends)}"]


def command(words: list[str]) -> int:
    """Runs `brake dxf` on its words. Raises Ends."""
    wish = read_words(words)
    keep_inputs(wish.out, [] if wish.source == "-" else [Path(wish.source)])
    print("\n".join(draw_blank(find_blank(wish.source), wish)))
    return 0


def main(words: list[str]) -> int:
    """Runs `brake dxf` and gives its exit status: 0 stored, 2 faulty words, 3 no printed blank, 5 a certificate that
    isn't good, 6 a file can't be read or stored, 70 no program, or an input would be stored over."""
    return run("dxf", USAGE, command, words)
