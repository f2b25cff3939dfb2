"""Vectors of three numbers."""
from __future__ import annotations

import math

Vector = tuple[float, float, float]


def plus(a: Vector, b: Vector, times: float = 1.0) -> Vector:
    """a + times * b."""
    return a[0] + times * b[0], a[1] + times * b[1], a[2] + times * b[2]


def minus(a: Vector, b: Vector) -> Vector:
    """a - b."""
    return plus(a, b, -1.0)


def scaled(a: Vector, times: float) -> Vector:
    """times * a."""
    return a[0] * times, a[1] * times, a[2] * times


def dot(a: Vector, b: Vector) -> float:
    """The scalar product."""
    return a[0] * b[0] + a[1] * b[1] + a[2] * b[2]


def cross(a: Vector, b: Vector) -> Vector:
    """The vector product."""
    return a[1] * b[2] - a[2] * b[1], a[2] * b[0] - a[0] * b[2], a[0] * b[1] - a[1] * b[0]


def size(a: Vector) -> float:
    """The length of a vector."""
    return math.sqrt(dot(a, a))


def unit(a: Vector) -> Vector:
    """The vector of length 1 in the same direction; a zero vector stays."""
    length = size(a)
    return scaled(a, 1 / length) if length else a


def is_parallel(a: Vector, b: Vector, tolerance: float = 1e-5) -> bool:
    """Whether two unit vectors lie along one line, either way."""
    return size(cross(a, b)) <= tolerance
