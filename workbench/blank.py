"""The blank as the program prints it: its size, its faces and its bend lines. Lengths in micrometres."""
from __future__ import annotations

from dataclasses import dataclass, field


@dataclass(frozen=True)
class BlankFace:
    """A face's rectangle in the blank, from its lower left to its upper right corner."""

    name: str
    x0: int
    y0: int
    x1: int
    y1: int


@dataclass(frozen=True)
class BendLine:
    """A bend's line, clockwise around the face on which its flange stands."""

    number: int
    x0: int
    y0: int
    x1: int
    y1: int
    is_up: bool

    @property
    def is_along_x(self) -> bool:
        """Whether the line runs along x."""
        return self.y0 == self.y1


@dataclass(frozen=True)
class Blank:
    """A blank that was printed."""

    size: tuple[int, int] = (0, 0)
    faces: tuple[BlankFace, ...] = ()
    bends: dict[int, BendLine] = field(default_factory=dict)


def read_blank(printed: str) -> Blank:
    """The blank of what `blank` or `plan` printed; what comes behind it isn't read."""
    size, faces, bends = (0, 0), [], {}
    for line in printed.splitlines():
        words = line.split()
        if words[:1] == ["size"]:
            size = (int(words[1]), int(words[2]))
        elif words[:1] == ["face"]:
            faces.append(BlankFace(words[2], *(int(word) for word in words[3:7])))
        elif words[:1] == ["bend"]:
            number, x0, y0, x1, y1 = (int(word) for word in words[1:6])
            bends[number] = BendLine(number, x0, y0, x1, y1, words[6] == "up")
        elif words != ["blank"]:
            break
    return Blank(size, tuple(faces), bends)
