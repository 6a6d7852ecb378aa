"""A version: its models, its rules, the buckets that are still to be checked, and its clashes."""

from collections.abc import Iterator, Sequence
from functools import cached_property

from tests.oracle.faults import Tree
from tests.oracle.model_file import Element
from tests.oracle.model_file.lengths import PER_MM
from tests.oracle.nearness import boxes_within, elements_near
from tests.oracle.piercing import elements_pierce

CELL, GROWTH = 4000 * PER_MM, 1000 * PER_MM
MOST_ELEMENTS, MOST_MEMBERSHIPS = 100000, 2000000
Cell = tuple[int, int, int]
Models = dict[str, Sequence[Element]]
Member = tuple[str, Element]


def spans_of(box: list[int]) -> list[range]:
    """The cells of four metres along each axis that a box reaches which is a metre larger on each
    side."""
    return [
        range((low - GROWTH) // CELL, (high + GROWTH) // CELL + 1)
        for low, high in zip(box[:3], box[3:])
    ]


def cells_of(box: list[int]) -> list[Cell]:
    xs, ys, zs = spans_of(box)
    return [(x, y, z) for x in xs for y in ys for z in zs]


def memberships_of(models: Models) -> int:
    """How many pairs of a cell and an element in it there are."""
    spans = (spans_of(it.box) for elements in models.values() for it in elements)
    return sum(len(xs) * len(ys) * len(zs) for xs, ys, zs in spans)


def close_pairs(boxes: list[list[int]], distance: int) -> Iterator[tuple[int, int]]:
    """The pairs of boxes that come within a distance along each axis, by their places."""
    by_low = sorted(range(len(boxes)), key=lambda n: boxes[n][0])
    open_ones: list[int] = []
    for n in by_low:
        low = boxes[n][0] - distance
        open_ones = [it for it in open_ones if boxes[it][3] >= low]
        for it in open_ones:
            if boxes_within(boxes[it], boxes[n], distance):
                yield min(it, n), max(it, n)
        open_ones.append(n)


class Version:
    """What a version holds: its models and its rules."""

    def __init__(self, models: Models, rules: list[Tree], before: "Version | None" = None) -> None:
        self.models, self.rules = dict(sorted(models.items())), rules
        self.elements = [(name, element) for name in self.models for element in self.models[name]]
        members: dict[Cell, list[Member]] = {}
        for key in self.elements:
            for cell in cells_of(key[1].box):
                members.setdefault(cell, []).append(key)
        self.buckets = {cell: members[cell] for cell in sorted(members) if len(members[cell]) > 1}
        self.undone = [cell for cell in self.buckets if not self.is_carried(cell, before)]

    def is_carried(self, cell: Cell, before: "Version | None") -> bool:
        """Whether the bucket was checked in the version before, under the same rules and with the
        same elements."""
        if before is None or before.rules != self.rules or cell in before.undone:
            return False
        return same_members(before.buckets.get(cell, []), self.buckets[cell])

    @cached_property
    def clashes(self) -> list[Tree]:
        """The clashes in the order of their elements."""
        pairs = sorted(close_pairs([it.box for _, it in self.elements], 1000 * PER_MM))
        return [it for i, j in pairs for it in self.clash_of(self.elements[i], self.elements[j])]

    def clash_of(self, one: Member, other: Member) -> list[Tree]:
        """The clash of two elements, if they clash: the first rule that fits decides."""
        (m, a), (n, b) = one, other
        fitting = ((k, it) for k, it in enumerate(self.rules) if fits(it, a, b, m == n))
        number, rule = next(fitting, (0, None))
        if rule is None or not meet(rule, a, b):
            return []
        ends = {"a": {"guid": a.guid, "model": m}, "b": {"guid": b.guid, "model": n}}
        within = {"distance": rule["distance"]} if rule["kind"] == "clash" else {}
        return [dict(ends, **within, rule=number)]


def meet(rule: Tree, a: Element, b: Element) -> bool:
    """Whether two elements meet as a rule asks."""
    if rule["kind"] == "clash":
        return elements_near(a, b, rule["distance"] * PER_MM)
    return rule["kind"] == "pierce" and elements_pierce(a, b)


def same_members(one: list[Member], other: list[Member]) -> bool:
    """Whether two buckets have the same elements: identifiers, classes, storeys, triangles."""

    def what(member: Member) -> tuple[object, ...]:
        name, it = member
        return name, it.guid, it.keyword, it.storey, it.triangles

    return len(one) == len(other) and all(what(a) == what(b) for a, b in zip(one, other))


def fits(rule: Tree, a: Element, b: Element, same_model: bool) -> bool:
    """Whether a rule fits two elements, of the same model or not."""
    classes = (a.keyword, b.keyword)
    storeys = (a.storey, b.storey)
    has_classes = any(
        rule["a"] in ("*", one) and rule["b"] in ("*", other)
        for one, other in (classes, classes[::-1])
    )
    has_storeys = rule["storey"] == "any" or (
        None not in storeys and (a.storey == b.storey) == (rule["storey"] == "same")
    )
    has_level = rule["level"] is None or storeys == (rule["level"], rule["level"])
    has_models = rule["models"] == "any" or same_model == (rule["models"] == "same")
    return has_classes and has_storeys and has_level and has_models
