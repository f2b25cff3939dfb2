"""`brake dxf`: what is drawn is the blank that was printed, read back by ezdxf."""
from __future__ import annotations

import io
import sys
from pathlib import Path

import pytest

ezdxf = pytest.importorskip("ezdxf", reason="python3-ezdxf isn't installed: the tests of dxf are left out")

from workbench.blank import BendLine, Blank, BlankFace, read_blank  # noqa: E402
from workbench.exchange.dxf_out import dxf_text, main  # noqa: E402
from workbench.exchange.endings import Ends  # noqa: E402
from workbench.exchange.outline import cut_of, twice_area  # noqa: E402
from workbench.tests.exchange.helper import EXAMPLES, ROOT, run  # noqa: E402

PRINTED = [folder for folder in EXAMPLES if (folder / "blank.txt").is_file()]


def read_back(data: bytes) -> ezdxf.document.Drawing:
    """The drawing of these bytes, without a fault."""
    drawing = ezdxf.read(io.StringIO(data.decode("cp1252")))
    audit = drawing.audit()
    assert (audit.errors, audit.fixes) == ([], [])
    return drawing


def micrometres(point: object) -> tuple[int, int]:
    """A point of the drawing, of which nothing may be lost."""
    x, y = float(point[0]), float(point[1])  # type: ignore[index]
    whole = round(1000 * x), round(1000 * y)
    assert abs(1000 * x - whole[0]) < 1e-6 and abs(1000 * y - whole[1]) < 1e-6
    return whole


def loops_in(drawing: ezdxf.document.Drawing) -> list[tuple[tuple[int, int], ...]]:
    """The closed loops of the layer CUT; an open polyline fails."""
    loops = []
    for entity in drawing.modelspace().query('POLYLINE LWPOLYLINE[layer=="CUT"]'):
        assert entity.is_closed if entity.dxftype() == "POLYLINE" else entity.closed
        points = entity.points() if entity.dxftype() == "POLYLINE" else entity.get_points("xy")
        loops.append(tuple(micrometres(point) for point in points))
    return loops


def lines_in(drawing: ezdxf.document.Drawing, layer: str) -> list[tuple[tuple[int, int], tuple[int, int]]]:
    """The lines of a layer."""
    lines = drawing.modelspace().query(f'LINE[layer=="{layer}"]')
    return [(micrometres(line.dxf.start), micrometres(line.dxf.end)) for line in lines]


def area_of(blank: Blank) -> int:
    """The sum of the printed faces, in square micrometres."""
    return sum((face.x1 - face.x0) * (face.y1 - face.y0) for face in blank.faces)


@pytest.mark.parametrize("folder", PRINTED, ids=lambda folder: folder.name)
@pytest.mark.parametrize("release", ["R12", "R2000"])
def test_the_drawing_is_the_printed_blank(folder: Path, release: str) -> None:
    """Area, closed loops, bend lines, and nothing for ezdxf to mend; in both releases and as lines too."""
    blank = read_blank((folder / "blank.txt").read_text())
    cut = cut_of(blank)
    drawing = read_back(dxf_text(blank, cut, release))
    loops = loops_in(drawing)
    assert sum(map(twice_area, loops)) == 2 * area_of(blank)
    assert sorted(loops) == sorted(cut.loops)
    for layer, is_up in (("BEND_UP", True), ("BEND_DOWN", False)):
        assert lines_in(drawing, layer) == [((bend.x0, bend.y0), (bend.x1, bend.y1))
                                            for bend in blank.bends.values() if bend.is_up == is_up]
    texts = [text.dxf.text for text in drawing.modelspace().query('TEXT[layer=="TEXT"]')]
    assert texts == [f"{bend.number} {'up' if bend.is_up else 'down'} 90" for bend in blank.bends.values()] + \
        [blank.faces[0].name]
    as_lines = read_back(dxf_text(blank, cut, release, has_lines=True))
    sides = [side for loop in cut.loops for side in zip(loop, loop[1:] + loop[:1])]
    assert (loops_in(as_lines), lines_in(as_lines, "CUT")) == ([], sides + list(cut.slits))


def test_units_are_millimetres() -> None:
    """R2000 says so, and the same blank gives the same bytes."""
    blank = read_blank((PRINTED[0] / "blank.txt").read_text())
    first, second = (dxf_text(blank, cut_of(blank), "R2000") for _ in range(2))
    assert first == second
    assert read_back(first).header["$INSUNITS"] == 4


def square(name: str, x: int, y: int, size: int = 10) -> BlankFace:
    """A face for small blanks."""
    return BlankFace(name, x, y, x + size, y + size)


def test_faces_that_touch_and_are_not_joined_are_cut_apart() -> None:
    """Two flanges side by side: one loop, one slit between them, which isn't drawn twice."""
    blank = Blank((20, 20), (BlankFace("base", 0, 0, 20, 10), square("a", 0, 10), square("b", 10, 10)),
                  {1: BendLine(1, 0, 10, 10, 10, True), 2: BendLine(2, 10, 10, 20, 10, False)})
    cut = cut_of(blank)
    assert cut.loops == (((0, 0), (20, 0), (20, 20), (0, 20)),)
    assert cut.slits == (((10, 10), (10, 20)),)
    assert cut.bends == {1: (((0, 10), (10, 10)),), 2: (((10, 10), (20, 10)),)}


def test_a_ring_of_faces_has_an_inner_loop() -> None:
    """Eight squares around a hole: the hole is a loop of its own, and runs clockwise."""
    ring = [(0, 0), (10, 0), (20, 0), (20, 10), (20, 20), (10, 20), (0, 20), (0, 10)]
    cut = cut_of(Blank((30, 30), tuple(square(f"f{x}{y}", x, y) for x, y in ring), {}))
    assert [twice_area(loop) for loop in cut.loops] == [1800, -200]
    assert len(cut.slits) == 8


def test_squares_that_meet_in_a_corner_stay_apart() -> None:
    """A point joins nothing: two loops."""
    cut = cut_of(Blank((20, 20), (square("a", 0, 0), square("b", 10, 10)), {}))
    assert len(cut.loops) == 2


def test_reliefs_are_notches_beside_the_line() -> None:
    """At each end, out of the face on which the flange stands, as wide and deep as asked."""
    blank = Blank((100, 60), (BlankFace("base", 0, 0, 100, 40), BlankFace("leg", 30, 40, 70, 60)),
                  {1: BendLine(1, 30, 40, 70, 40, True)})
    cut = cut_of(blank, (3, 5))
    assert cut.loops == (((0, 0), (100, 0), (100, 40), (73, 40), (73, 35), (70, 35), (70, 60), (30, 60), (30, 35),
                          (27, 35), (27, 40), (0, 40)),)
    assert cut.bends == {1: (((30, 40), (70, 40)),)}
    assert sum(map(twice_area, cut.loops)) == 2 * (area_of(blank) - 2 * 3 * 5)


def test_a_relief_shortens_no_face_beside(tmp_path: Path) -> None:
    """The pan with reliefs: less area than without, its loops closed, its bend lines within the printed ones."""
    blank = read_blank((ROOT / "examples/pan/blank.txt").read_text())
    cut = cut_of(blank, (1000, 2000))
    assert 0 < 2 * area_of(blank) - sum(map(twice_area, cut.loops)) < 2 * 8 * 1000 * 2000
    assert all(len(lines) == 1 for lines in cut.bends.values())
    read_back(dxf_text(blank, cut))


def test_names_are_shown_as_they_are() -> None:
    """Marks of DXF's own within a name are no marks: a caret stays, and two percent signs get a blank between."""
    blank = Blank((10, 10), (square("50%%d^I", 0, 0),), {})
    drawing = read_back(dxf_text(blank, cut_of(blank)))
    assert [text.plain_text() for text in drawing.modelspace().query("TEXT")] == ["50% %d^I"]


def test_a_certificate_is_checked_first(program: Path, tmp_path: Path, capsys: pytest.CaptureFixture[str]) -> None:
    """Its drawing is that of the printed blank; with a changed cost it is refused, and nothing is stored."""
    good = ROOT / "examples/pan/plan.cert"
    assert main([str(good), str(tmp_path / "cert.dxf")]) == 0
    assert main([str(good.with_name("blank.txt")), str(tmp_path / "blank.dxf")]) == 0
    assert (tmp_path / "cert.dxf").read_bytes() == (tmp_path / "blank.dxf").read_bytes()
    capsys.readouterr()
    bad = tmp_path / "bad.cert"
    bad.write_bytes(good.read_bytes().replace(b"\nclaim 4", b"\nclaim 3"))
    line = run(program, "check", bad).stdout.strip()
    assert main([str(bad), str(tmp_path / "bad.dxf")]) == 5
    said = capsys.readouterr()
    assert (said.out.strip(), "isn't a good certificate" in said.err) == (line, True)
    assert not (tmp_path / "bad.dxf").exists()


def test_standard_input_and_a_plan_are_read(tmp_path: Path, monkeypatch: pytest.MonkeyPatch) -> None:
    """`-` is standard input; of what `plan` printed the blank at its head is drawn."""
    text = (ROOT / "examples/pan/plan.txt").read_bytes()
    monkeypatch.setattr(sys, "stdin", io.TextIOWrapper(io.BytesIO(text)))
    assert main(["-", str(tmp_path / "a.dxf")]) == 0
    assert main([str(ROOT / "examples/pan/blank.txt"), str(tmp_path / "b.dxf")]) == 0
    assert (tmp_path / "a.dxf").read_bytes() == (tmp_path / "b.dxf").read_bytes()


@pytest.mark.parametrize(("text", "sentence"), [
    ("", "its first line isn't 'blank'"),
    ("\x80\n", "isn't ASCII"),
    ("blank\nsize 10 10\nface 0 a 0 0 10\n", "line 3: 'face 0 a 0 0 10' isn't a line 'face'"),
    ("blank\nsize 10 10\nface 0 a 0 0 10 10\nface 1 b 0 10 10 20\n", "2 faces and 0 bends"),
    ("blank\nsize 10 10\nface 0 a 0 0 0 10\n", "face 'a' has no inside"),
    ("blank\nsize 10 20\nface 0 a 0 0 10 10\nface 1 b 0 10 10 20\nbend 1 0 0 10 10 up\n", "bend 1 isn't a line"),
    ("blank\nsize 10 20\nface 0 a 0 0 10 10\nface 1 b 0 5 10 20\nbend 1 0 10 10 10 up\n", "lie in one another"),
])
def test_other_texts_are_refused(tmp_path: Path, capsys: pytest.CaptureFixture[str], text: str, sentence: str) -> None:
    """One sentence with the place; nothing is stored."""
    (tmp_path / "blank.txt").write_bytes(text.encode("latin-1"))
    assert main([str(tmp_path / "blank.txt"), str(tmp_path / "out.dxf")]) == 3
    assert sentence in capsys.readouterr().err
    assert not (tmp_path / "out.dxf").exists()


def test_an_input_is_never_stored_over(tmp_path: Path, capsys: pytest.CaptureFixture[str]) -> None:
    """Neither by its name nor by a link; a folder that isn't there and faulty words have their sentences."""
    text = (ROOT / "examples/pan/blank.txt").read_text()
    (tmp_path / "blank.txt").write_text(text)
    (tmp_path / "link").symlink_to("blank.txt")
    assert main([str(tmp_path / "blank.txt"), str(tmp_path / "link")]) == 70
    assert main([str(tmp_path / "blank.txt"), str(tmp_path / "no" / "out.dxf")]) == 6
    assert main([str(tmp_path / "no.txt"), str(tmp_path / "out.dxf")]) == 6
    assert main([str(tmp_path / "blank.txt"), str(tmp_path / "out.dxf"), "--relief", "1", "0"]) == 2
    assert main([str(tmp_path / "blank.txt")]) == 2
    assert (tmp_path / "blank.txt").read_text() == text
    assert "there is no folder" in capsys.readouterr().err


def test_overlapping_faces_are_no_blank() -> None:
    """The cut refuses them by their names."""
    with pytest.raises(Ends, match="'a' and 'b' lie in one another"):
        cut_of(Blank((10, 10), (square("a", 0, 0), square("b", 5, 5)), {}))
