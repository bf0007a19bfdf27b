"""Vectors of three exact numbers. They are whole by their types; fractions do as well."""
from __future__ import annotations

from math import gcd
from typing import Sequence, Tuple

Vector = Tuple[int, int, int]


def minus(p: Vector, q: Vector) -> Vector:
    """The way from q to p."""
    return (p[0] - q[0], p[1] - q[1], p[2] - q[2])


def plus(p: Vector, q: Vector) -> Vector:
    """The sum."""
    return (p[0] + q[0], p[1] + q[1], p[2] + q[2])


def times(factor: int, p: Vector) -> Vector:
    """The vector times a factor."""
    return (factor * p[0], factor * p[1], factor * p[2])


def dot(p: Vector, q: Vector) -> int:
    """The scalar product."""
    return p[0] * q[0] + p[1] * q[1] + p[2] * q[2]


def cross(p: Vector, q: Vector) -> Vector:
    """The vector product."""
    return (p[1] * q[2] - p[2] * q[1], p[2] * q[0] - p[0] * q[2], p[0] * q[1] - p[1] * q[0])


def triangle_normal(a: Vector, b: Vector, c: Vector) -> Vector:
    """The normal of a triangle, seen counterclockwise from its tip; zero if the corners are in line."""
    return cross(minus(b, a), minus(c, a))


def polygon_normal(points: Sequence[Vector]) -> Vector:
    """The normal of a plane polygon, seen counterclockwise from its tip, as long as twice its area."""
    total: Vector = (0, 0, 0)
    for b, c in zip(points[1:], points[2:]):
        total = plus(total, triangle_normal(points[0], b, c))
    return total


def lowest_terms(vector: Vector) -> Vector:
    """The shortest whole vector of the same direction."""
    divisor = gcd(*vector)
    return (vector[0] // divisor, vector[1] // divisor, vector[2] // divisor) if divisor else vector
