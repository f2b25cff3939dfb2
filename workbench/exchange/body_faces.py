"""The faces of a body as the kernel read them, in millimetres: planes, cylinders, and what else there is."""
from __future__ import annotations

import math
from dataclasses import dataclass
from typing import Any

from .vectors import Vector, cross, dot, minus, plus, size, unit

TOLERANCE = 1e-3
"""Millimetres by which equal places may differ."""
FLAT = 1e-5
"""By which unit vectors may differ that are taken as parallel."""


@dataclass(frozen=True, eq=False)
class Edge:
    """A curve with its two ends and a point between; the same number stands in both faces that it parts."""

    number: int
    kind: str
    start: Vector
    middle: Vector
    end: Vector

    @property
    def is_line(self) -> bool:
        """Whether it is straight."""
        return self.kind == "Line"


@dataclass(frozen=True, eq=False)
class BodyFace:
    """A face: of a plane its normal (either way), of a cylinder a point of its axis, the axis, the radius, the sweep."""

    number: int
    kind: str
    edges: tuple[Edge, ...]
    at: Vector
    normal: Vector = (0.0, 0.0, 0.0)
    axis: Vector = (0.0, 0.0, 0.0)
    radius: float = 0.0
    sweep: float = 0.0
    """Degrees around the axis."""

    @property
    def points(self) -> list[Vector]:
        """Ends and middles of its edges."""
        return [point for edge in self.edges for point in (edge.start, edge.middle, edge.end)]

    @property
    def place(self) -> str:
        """The face's number and a point of it, for a sentence."""
        x, y, z = (f"{number + 0.0:.3f}" for number in self.at)
        return f"face {self.number} at {x}, {y}, {z} mm"


def read_face(data: dict[str, Any]) -> BodyFace:
    """A face of the kernel's answer."""
    edges = tuple(Edge(number, kind, *(vector(point) for point in points)) for number, kind, points in data["edges"])
    if data["kind"] not in ("Plane", "Cylinder"):
        return BodyFace(data["number"], data["kind"], edges, edges[0].middle if edges else (0.0, 0.0, 0.0))
    places, normals = [vector(point) for point in data["places"]], [unit(vector(way)) for way in data["normals"]]
    if data["kind"] == "Plane":
        return BodyFace(data["number"], "Plane", edges, places[1], normals[1])
    radius, axis = data["radius"], unit(cross(normals[0], normals[2]))
    across = minus(places[2], places[0])
    turned = minus(normals[2], normals[0])
    way = 1.0 if dot(across, turned) >= 0 else -1.0
    on_axis = plus(places[1], normals[1], -way * radius)
    return BodyFace(data["number"], "Cylinder", edges, places[1], axis=axis, radius=radius,
                    sweep=math.degrees(data["sweep"][0]), normal=on_axis)


def vector(numbers: list[float]) -> Vector:
    """Three numbers as a vector."""
    x, y, z = numbers
    return float(x), float(y), float(z)


def axis_point(face: BodyFace) -> Vector:
    """A point of a cylinder's axis."""
    return face.normal


def off_axis(face: BodyFace, point: Vector) -> Vector:
    """From a cylinder's axis to a point, square to the axis."""
    across = minus(point, axis_point(face))
    return plus(across, face.axis, -dot(across, face.axis))


def is_coaxial(a: BodyFace, b: BodyFace) -> bool:
    """Whether two cylinders have one axis."""
    return size(cross(a.axis, b.axis)) <= FLAT and size(off_axis(a, axis_point(b))) <= TOLERANCE
