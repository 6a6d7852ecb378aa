"""Whether two surfaces go through each other, by whole numbers and fractions alone."""

from fractions import Fraction

from tests.oracle.model_file import Element
from tests.oracle.nearness import Triangle, Vector, box_of, boxes_within, cross, dot, minus, normal

Stretch = tuple[Fraction, Fraction]


def stretch_on(triangle: Triangle, heights: list[int], line: Vector) -> Stretch:
    """Where the open triangle meets a plane that has corners of it on both sides, along a line of
    that plane. The heights are those of its corners over the plane, in any one unit."""
    places = [Fraction(dot(line, corner)) for corner in triangle]
    ends = [places[n] for n in range(3) if heights[n] == 0]
    for n in range(3):
        m = (n + 1) % 3
        if heights[n] * heights[m] < 0:
            part = Fraction(heights[n], heights[n] - heights[m])
            ends.append(places[n] + part * (places[m] - places[n]))
    return min(ends), max(ends)


def pierces(one: Triangle, other: Triangle) -> bool:
    """Whether two triangles with an area, which don't lie in one plane, have a common point that is
    inside of both."""
    n, m = normal(one), normal(other)
    over_other = [dot(m, minus(corner, other[0])) for corner in one]
    over_one = [dot(n, minus(corner, one[0])) for corner in other]
    if not min(over_other) < 0 < max(over_other) or not min(over_one) < 0 < max(over_one):
        return False
    line = cross(n, m)
    low, high = stretch_on(one, over_other, line)
    least, greatest = stretch_on(other, over_one, line)
    return max(low, least) < min(high, greatest)


def elements_pierce(one: Element, other: Element) -> bool:
    """Whether two triangles of two elements pierce."""
    boxed = [(it, box_of(it)) for it in other.triangles]
    return any(
        boxes_within(box_of(a), box, 0) and pierces(a, b) for a in one.triangles for b, box in boxed
    )
