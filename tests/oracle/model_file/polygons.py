"""A polygon in space as triangles, by cutting off one corner at a time."""

from collections.abc import Sequence

from tests.oracle.model_file.frames import Point, cross

Ear = tuple[int, int, int]
Flat = tuple[int, int]


def minus(a: Point, b: Point) -> Point:
    return a[0] - b[0], a[1] - b[1], a[2] - b[2]


def normal_of(corners: Sequence[Point]) -> Point:
    """The sum of the cross products of neighbours."""
    products = [cross(a, b) for a, b in zip(corners, [*corners[1:], corners[0]], strict=True)]
    x, y, z = (sum(it[n] for it in products) for n in range(3))
    return x, y, z


def flat_area(a: Flat, b: Flat, c: Flat) -> int:
    return (b[0] - a[0]) * (c[1] - b[1]) - (b[1] - a[1]) * (c[0] - b[0])


class Polygon:
    """A polygon, seen along the axis of its normal's greatest component."""

    def __init__(self, corners: Sequence[Point]) -> None:
        self.corners, normal = corners, normal_of(corners)
        sizes = [abs(it) for it in normal]
        self.axis = sizes.index(max(sizes))
        self.is_flat = not any(normal)
        self.sign = (normal[self.axis] > 0) - (normal[self.axis] < 0)
        first, second = (self.axis + 1) % 3, (self.axis + 2) % 3
        self.view = [(it[first], it[second]) for it in corners]

    def area(self, ear: Ear) -> int:
        """The signed area of a corner between two others, seen from the normal's side; where there
        is no normal, only whether the three lie on one line counts."""
        a, b, c = ear
        if self.is_flat:
            one, other = (minus(self.corners[n], self.corners[b]) for n in (a, c))
            return -1 if any(cross(one, other)) else 0
        return self.sign * flat_area(self.view[a], self.view[b], self.view[c])

    def holds(self, ear: Ear, place: int) -> bool:
        """Whether the closed triangle of an ear, whose area is positive, holds a corner that
        stands at none of its own."""
        a, b, c = (self.view[n] for n in ear)
        point = self.view[place]
        if point in (a, b, c):
            return False
        sides = ((a, b), (b, c), (c, a))
        return all(self.sign * flat_area(one, other, point) >= 0 for one, other in sides)

    def next_ear(self, left: list[int]) -> int | None:
        """Which of the remaining corners goes next; None where none can."""
        ears = [(left[n - 1], left[n], left[(n + 1) % len(left)]) for n in range(len(left))]
        areas = [self.area(ear) for ear in ears]
        if 0 in areas:
            return areas.index(0)
        for n, ear in enumerate(ears):
            if areas[n] > 0 and not any(self.holds(ear, it) for it in left if it not in ear):
                return n
        return None

    def cut(self) -> list[Ear] | None:
        """The triangles by places in the list of corners; None where cutting is stuck."""
        left, cut = list(range(len(self.corners))), []
        while len(left) > 3:
            n = self.next_ear(left)
            if n is None:
                return None
            cut.append((left[n - 1], left[n], left[(n + 1) % len(left)]))
            del left[n]
        a, b, c = left
        if not self.is_flat and self.area((a, b, c)) < 0:
            return None
        return [*cut, (a, b, c)]
