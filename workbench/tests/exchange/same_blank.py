"""Blanks compared up to a turn or a flip of the sheet."""
from __future__ import annotations

from workbench.blank import read_blank

Key = tuple[list[tuple[int, ...]], list[tuple[int, ...]]]


def canonical(printed: str) -> Key:
    """The faces and bend lines of a printed blank in the least of its eight positions; flipped, up is down."""
    return min(turned(printed, turns, is_flipped) for turns in range(4) for is_flipped in (False, True))


def turned(printed: str, turns: int, is_flipped: bool) -> Key:
    """The faces and bend lines after a flip and quarter turns, from the corner of their box."""
    blank = read_blank(printed)

    def go(x: int, y: int) -> tuple[int, int]:
        x = -x if is_flipped else x
        for _ in range(turns):
            x, y = -y, x
        return x, y

    faces = [sorted((go(face.x0, face.y0), go(face.x1, face.y1))) for face in blank.faces]
    boxes = [(a[0], min(a[1], b[1]), b[0], max(a[1], b[1])) for a, b in faces]
    left, low = min(box[0] for box in boxes), min(box[1] for box in boxes)
    lines = []
    for bend in blank.bends.values():
        a, b = sorted((go(bend.x0, bend.y0), go(bend.x1, bend.y1)))
        lines.append((a[0] - left, a[1] - low, b[0] - left, b[1] - low, int(bend.is_up != is_flipped)))
    return sorted((a - left, b - low, c - left, d - low) for a, b, c, d in boxes), sorted(lines)
