"""The loops of a face with voids, joined to one list of corners by bridges."""

from collections.abc import Iterator, Sequence

from tests.oracle.model_file.frames import Point
from tests.oracle.model_file.polygons import Flat, Polygon, flat_area, normal_of

Segment = tuple[Flat, Flat]


def is_between(a: Flat, b: Flat, p: Flat) -> bool:
    """Whether a point of a segment's line lies on the segment."""
    return min(a, b) <= p <= max(a, b)


def is_clear(bridge: Segment, edge: Segment) -> bool:
    """Whether a bridge meets an edge only in a point that is an end of both."""
    (a, b), (c, d) = bridge, edge
    before, after = flat_area(a, b, c), flat_area(a, b, d)
    if c == d:
        return bool(before) or not is_between(a, b, c) or c in (a, b)
    if before == after == 0:
        low, high = max(min(a, b), min(c, d)), min(max(a, b), max(c, d))
        return low >= high
    sides = flat_area(c, d, a), flat_area(c, d, b)
    apart = before * after > 0 or sides[0] * sides[1] > 0
    return apart or bool({a, b} & {c, d})


class Joining:
    """The loops of a face, seen as the outer one is cut; the first is the current list."""

    def __init__(self, loops: Sequence[Sequence[Point]]) -> None:
        outer = Polygon(loops[0])
        self.sign = outer.sign
        points = [point for loop in loops for point in loop]
        first, second = (outer.axis + 1) % 3, (outer.axis + 2) % 3
        self.view = [(it[first], it[second]) for it in points]
        ends = [sum(len(it) for it in loops[: n + 1]) for n in range(len(loops))]
        places = [list(range(end - len(loop), end)) for loop, end in zip(loops, ends, strict=True)]
        self.current = places[0]
        self.left = [
            [it[0], *reversed(it[1:])] if normal_of(loop)[outer.axis] * self.sign > 0 else it
            for loop, it in zip(loops[1:], places[1:], strict=True)
        ]

    def edges(self) -> list[Segment]:
        loops = [self.current, *self.left]
        return [(self.view[it[n - 1]], self.view[it[n]]) for it in loops for n in range(len(it))]

    def is_left(self, a: Flat, b: Flat, p: Flat) -> bool:
        return self.sign * flat_area(a, b, p) > 0

    def leads_inside(self, i: int, end: Flat) -> bool:
        """Whether the way from the i-th corner of the list to a point lies within its angle."""
        count = len(self.current)
        a, b, c = (self.view[self.current[n % count]] for n in (i - 1, i, i + 1))
        sides = self.is_left(a, b, end), self.is_left(b, c, end)
        return all(sides) if self.is_left(a, b, c) else any(sides)

    def free(self) -> Iterator[tuple[int, int, int]]:
        """The free bridges, by loop, corner of the list and corner of the loop."""
        edges = self.edges()
        for k, loop in enumerate(self.left):
            for i, place in enumerate(self.current):
                for j, end in enumerate(self.view[it] for it in loop):
                    start = self.view[place]
                    if start == end or not self.leads_inside(i, end):
                        continue
                    if all(is_clear((start, end), it) for it in edges):
                        yield k, i, j

    def joined(self) -> list[int] | None:
        """The places of the joined list; None where it is stuck."""
        while self.left and self.sign:
            bridge = next(self.free(), None)
            if bridge is None:
                return None
            k, i, j = bridge
            loop = self.left.pop(k)
            way = [*loop[j:], *loop[: j + 1], self.current[i]]
            self.current[i + 1 : i + 1] = way
        return None if self.left else self.current
