"""The child that works with Open CASCADE: `python3 -m workbench.exchange.kernel_child WORK ASKED ANSWERED`.

`write` joins boxes and quarter rings (in micrometres) to one body and stores it as STEP in mm; `read` gives the faces of a
STEP file's solids. Both files are JSON; the answer is written beside and renamed, so that a crash leaves none.
"""
from __future__ import annotations

import json
import math
import os
import sys
from pathlib import Path
from typing import Any

import gmsh

Tag = tuple[int, int]
MM = 0.001


def begin() -> None:
    """Starts the kernel without its messages; lengths are in mm."""
    gmsh.initialize([])
    gmsh.option.setNumber("General.Terminal", 0)
    gmsh.option.setNumber("General.NumThreads", 1)
    gmsh.option.setString("Geometry.OCCTargetUnit", "MM")
    gmsh.model.add("body")


def in_mm(point: list[int]) -> list[float]:
    """A point of micrometres in millimetres."""
    return [number * MM for number in point]


def add_box(low: list[int], high: list[int]) -> Tag:
    """A box between two corners."""
    sizes = [(b - a) * MM for a, b in zip(low, high)]
    return 3, gmsh.model.occ.addBox(*in_mm(low), *sizes)


def add_ring(ring: dict[str, Any]) -> Tag:
    """A quarter ring: its profile, pulled along its axis."""
    kernel = gmsh.model.occ
    middle = in_mm(ring["start"])

    def at(way: list[int], radius: int) -> int:
        return int(kernel.addPoint(*(middle[i] + way[i] * radius * MM for i in range(3))))

    center = kernel.addPoint(*middle)
    first, last, inner, outer = ring["first"], ring["last"], ring["inner"], ring["outer"]
    a, b, c, d = at(first, inner), at(last, inner), at(last, outer), at(first, outer)
    sides = [kernel.addCircleArc(a, center, b), kernel.addLine(b, c), kernel.addCircleArc(c, center, d),
             kernel.addLine(d, a)]
    profile = kernel.addPlaneSurface([kernel.addCurveLoop(sides)])
    made = kernel.extrude([(2, profile)], *(way * ring["length"] * MM for way in ring["axis"]))
    kernel.remove([(0, center)])
    return next(tag for tag in made if tag[0] == 3)


def cut_away(body: Tag, cuts: list[dict[str, Any]]) -> Tag:
    """The body less cylinders (`at`, `axis` in micrometres, `radius`) and boxes (`low`, `high`)."""
    kernel = gmsh.model.occ
    for cut in cuts:
        if "radius" in cut:
            tool = (3, kernel.addCylinder(*in_mm(cut["at"]), *in_mm(cut["axis"]), cut["radius"] * MM))
        else:
            tool = add_box(cut["low"], cut["high"])
        body = kernel.cut([body], [tool])[0][0]
    return body


def write(asked: dict[str, Any]) -> dict[str, Any]:
    """Joins the pieces, cuts, turns and scales as asked, and stores the body."""
    kernel = gmsh.model.occ
    pieces = [add_box(*box) for box in asked["boxes"]] + [add_ring(ring) for ring in asked["rings"]]
    whole = sum(kernel.getMass(*piece) for piece in pieces)
    joined = kernel.fuse(pieces[:1], pieces[1:])[0] if len(pieces) > 1 else pieces
    if len(joined) != 1:
        return {"fault": f"the plates and bends don't join to one body but to {len(joined)}"}
    shared = whole - kernel.getMass(*joined[0])
    cut_away(joined[0], asked.get("cuts", []))
    kernel.synchronize()
    solids = gmsh.model.getEntities(3)
    if "matrix" in asked:
        kernel.affineTransform(solids, asked["matrix"])
    kernel.synchronize()
    gmsh.write(asked["out"])
    return {"shared": shared}


def points_of(curve: int) -> list[list[float]]:
    """The two ends of a curve and a point between them."""
    low, high = (bound[0] for bound in gmsh.model.getParametrizationBounds(1, curve))
    values = gmsh.model.getValue(1, curve, [low, (low + high) / 2, high])
    return [list(values[i:i + 3]) for i in (0, 3, 6)]


def read_face(tag: int) -> dict[str, Any]:
    """A face: its kind, its curves, and normals at three places."""
    kind = gmsh.model.getType(2, tag)
    curves = [abs(number) for _, number in gmsh.model.getBoundary([(2, tag)], combined=False, oriented=False)]
    edges = [[curve, gmsh.model.getType(1, curve), points_of(curve)] for curve in curves]
    face: dict[str, Any] = {"number": tag, "kind": kind, "edges": edges}
    low, high = gmsh.model.getParametrizationBounds(2, tag)
    face["sweep"] = [b - a for a, b in zip(low, high)]
    if kind in ("Plane", "Cylinder"):
        places = [[low[0] + part * (high[0] - low[0]), (low[1] + high[1]) / 2] for part in (0.25, 0.5, 0.75)]
        flat = [number for place in places for number in place]
        values, normals = gmsh.model.getValue(2, tag, flat), gmsh.model.getNormal(tag, flat)
        face["places"] = [list(values[i:i + 3]) for i in (0, 3, 6)]
        face["normals"] = [list(normals[i:i + 3]) for i in (0, 3, 6)]
        if kind == "Cylinder":
            curvature = gmsh.model.getCurvature(2, tag, flat[2:4])[0]
            face["radius"] = 1 / abs(curvature) if curvature else math.inf
    return face


def read(asked: dict[str, Any]) -> dict[str, Any]:
    """The solids of a STEP file with their boxes, and the faces of the chosen one."""
    gmsh.model.occ.importShapes(asked["path"], highestDimOnly=True)
    gmsh.model.occ.synchronize()
    solids = [tag for _, tag in gmsh.model.getEntities(3)]
    answer: dict[str, Any] = {"solids": [list(gmsh.model.getBoundingBox(3, tag)) for tag in solids], "faces": [],
                              "surfaces": len(gmsh.model.getEntities(2))}
    chosen = asked["solid"]
    if chosen < len(solids):
        faces = [tag for _, tag in gmsh.model.getBoundary([(3, solids[chosen])], combined=False, oriented=False)]
        answer["faces"] = [read_face(abs(tag)) for tag in faces]
        answer["volume"] = gmsh.model.occ.getMass(3, solids[chosen])
    return answer


def main(words: list[str]) -> int:
    """Does the work and writes its answer; a fault of the kernel is an answer too."""
    work, asked, answered = words
    begin()
    try:
        answer = {"write": write, "read": read}[work](json.loads(Path(asked).read_text(encoding="utf-8")))
    except Exception as fault:  # noqa: BLE001 - gmsh raises Exception itself
        answer = {"fault": f"the CAD kernel says: {fault}"}
    Path(answered + ".new").write_text(json.dumps(answer), encoding="utf-8")
    os.replace(answered + ".new", answered)
    return 0


if __name__ == "__main__":
    sys.exit(main(sys.argv[1:]))
