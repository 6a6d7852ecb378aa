"""The model of a file: its faults in the order of their stages, and its elements."""

from dataclasses import dataclass
from functools import cached_property, lru_cache

from tests.oracle.faults import Refused
from tests.oracle.faults import Tree as Json
from tests.oracle.model_file.attributes import FACES, ITEMS, OPERATOR, Survey
from tests.oracle.model_file.bridges import Joining
from tests.oracle.model_file.faces import (
    faces_of,
    has_bad_index,
    is_polygonal,
    loops_of,
    loops_of_face,
    places,
    points_of,
    sets_of,
)
from tests.oracle.model_file.frames import (
    IDENTITY,
    Frame,
    Point,
    number_of,
    operator_axes,
    placement_axes,
)
from tests.oracle.model_file.lengths import MOST_AWAY, grid_number, length_unit
from tests.oracle.model_file.polygons import Polygon
from tests.oracle.model_file.statements import Exchange, Reference, Value, Words, read, references
from tests.oracle.model_file.texts import text_of
from tests.oracle.model_file.tree import Tree

MOST_CORNERS, MOST_TRIANGLES = 1000, 1000000
Triangle = tuple[Point, Point, Point]
Maybe = tuple[int | None, ...]


@dataclass(eq=True)
class Element:
    """An element of a model, its triangles in grid numbers."""

    guid: str
    keyword: str
    name: str
    storey: str | None
    triangles: list[Triangle]

    @cached_property
    def box(self) -> list[int]:
        """The least corner and then the greatest."""
        corners = [corner for triangle in self.triangles for corner in triangle]
        columns = list(zip(*corners, strict=True))
        return [min(it) for it in columns] + [max(it) for it in columns]

    def tree(self) -> Json:
        """The element as a version lists it."""
        return {
            "box": self.box,
            "class": self.keyword,
            "guid": self.guid,
            "name": self.name,
            "storey": self.storey,
            "triangles": len(self.triangles),
        }


def too_many(what: str) -> Refused:
    return Refused("U19", "TooMany", what=what)


class Building:
    """A file whose attributes have their forms, on its way to a model."""

    def __init__(self, exchange: Exchange, snap: bool) -> None:
        self.exchange, self.snap = exchange, snap
        self.survey = Survey(exchange)
        self.scale = length_unit(exchange)
        self.tree = Tree(self.survey)
        self.elements = self.survey.elements()
        self.axes: dict[int, Frame] = {}
        self.points: dict[int, list[Point]] = {}
        self.local: dict[int, list[Triangle]] = {}
        self.apart: list[int] = []
        self.stuck: list[int] = []

    def refuse(self, code: str, word: str, ids: list[int]) -> None:
        """Refuses the file where an instance is at fault, the one of the least number."""
        if ids:
            raise Refused(code, word, id=min(ids))

    def guid(self, element: int) -> str:
        value = self.exchange.attribute(element, 0)
        assert isinstance(value, Words)
        return text_of(value.spelled)

    def check_guids(self) -> None:
        seen: set[str] = set()
        for id in self.elements:
            if self.guid(id) in seen:
                self.refuse("U17", "DoubleGuid", [id])
            seen.add(self.guid(id))

    def chain(self, placement: int) -> list[int] | None:
        """A placement and those above it; None where they never end."""
        chain, at = [placement], self.exchange.attribute(placement, 0)
        seen = {placement}
        while isinstance(at, Reference):
            if at.id in seen:
                return None
            seen.add(at.id)
            chain.append(at.id)
            at = self.exchange.attribute(at.id, 0)
        return chain

    def check_chains(self) -> None:
        named = {it for id in self.elements for it in references(self.exchange.attribute(id, 5))}
        self.refuse("U12", "PlacementLoop", [it for it in named if self.chain(it) is None])

    def check_axes(self) -> None:
        oblique = []
        for id in self.survey.of(b"IFCAXIS2PLACEMENT3D", OPERATOR):
            is_operator = self.exchange.keyword(id) == OPERATOR
            axes = (operator_axes if is_operator else placement_axes)(self.exchange, id)
            if axes is None:
                oblique.append(id)
            else:
                self.axes[id] = axes
        self.refuse("U11", "Oblique", oblique)

    def grid_of(self, value: Value) -> Maybe:
        """The grid numbers of a point's coordinates, none where it has none."""
        assert isinstance(value, list)
        return tuple(grid_number(number_of(it), self.scale, self.snap) for it in value)

    def is_identity(self, origin: int) -> bool:
        """Whether a mapping origin is the identity; where its location is off the grid, whether
        its axes are."""
        frame = self.axes[origin]
        location = references(self.exchange.attribute(origin, 0))[0]
        numbers = self.grid_of(self.exchange.attribute(location, 0))
        at_zero = None in numbers or not any(numbers)
        return at_zero and frame == IDENTITY

    def unsupported(self, item: int, in_mapped: bool) -> list[int]:
        """The instances on account of which an item isn't supported."""
        exchange = self.exchange
        keyword = exchange.keyword(item)
        if keyword not in ITEMS:
            return [item]
        if keyword != ITEMS[2]:
            return []
        found = [item] if in_mapped else []
        source = references(exchange.attribute(item, 0))[0]
        target = references(exchange.attribute(item, 1))[0]
        if exchange.keyword(target) != OPERATOR:
            found.append(target)
        else:
            scale = exchange.attribute(target, 3)
            if scale is not None and number_of(scale) != 1:
                found.append(target)
        if not self.is_identity(references(exchange.attribute(source, 0))[0]):
            found.append(item)
        return found

    def check_items(self) -> None:
        found = []
        for id in self.survey.listing():
            for item in references(self.exchange.attribute(id, 3)):
                found += self.unsupported(item, id in self.survey.mapped)
        self.refuse("U13", "UnsupportedItem", found)

    def check_indexes(self) -> None:
        bad = [id for id in sets_of(self.survey) if has_bad_index(self.exchange, id)]
        self.refuse("U14", "BadIndex", bad)

    def point_of(self, id: int, value: Value) -> Point:
        """A point in grid numbers; U9 or U10 by its first number that is refused."""
        for number in self.grid_of(value):
            if number is None:
                raise Refused("U9", "OffGrid", id=id)
            if abs(number) > MOST_AWAY:
                raise Refused("U10", "TooFar", id=id)
        x, y, z = (number or 0 for number in self.grid_of(value))
        return x, y, z

    def check_points(self) -> None:
        for id in self.survey.of(b"IFCCARTESIANPOINT", b"IFCCARTESIANPOINTLIST3D"):
            value = self.exchange.attribute(id, 0)
            assert isinstance(value, list)
            one = self.exchange.keyword(id) == b"IFCCARTESIANPOINT"
            listed: list[Value] = [value] if one else value
            self.points[id] = [self.point_of(id, it) for it in listed]

    def check_corners(self) -> None:
        for face in self.survey.of(*FACES):
            if sum(len(it) for it in loops_of_face(self.exchange, face)) > MOST_CORNERS:
                raise too_many("corners")

    def cut(self, corners: list[Point]) -> list[Triangle] | None:
        ears = Polygon(corners).cut()
        return None if ears is None else [(corners[a], corners[b], corners[c]) for a, b, c in ears]

    def cut_face(self, points: list[Point], id: int, face: int) -> list[Triangle] | None:
        """The triangles of a face of a set. None where it is stuck, whose fault is noted."""
        loops = [places(self.exchange, id, it) for it in loops_of_face(self.exchange, face)]
        corners = [[points[at] for at in loop] for loop in loops]
        joined = corners[0]
        if len(loops) > 1:
            listed = Joining(corners).joined()
            if listed is None:
                self.apart.append(face)
                return None
            every = [corner for loop in corners for corner in loop]
            joined = [every[at] for at in listed]
        cut = self.cut(joined)
        if cut is None:
            self.stuck.append(face)
        return cut

    def check_cutting(self) -> None:
        """Cuts the faces of all sets; U16 where loops can't be joined, U15 where their list can't
        be cut. Of the first face that has one, U16 stands before U15."""
        for id in sets_of(self.survey):
            points = self.points[points_of(self.exchange, id)]
            if not is_polygonal(self.exchange, id):
                loops = [places(self.exchange, id, it) for it in loops_of(self.exchange, id)]
                self.local[id] = [(points[a], points[b], points[c]) for a, b, c in loops]
                continue
            cut = [self.cut_face(points, id, face) for face in faces_of(self.exchange, id)]
            self.local[id] = [triangle for it in cut for triangle in it or []]
        least = min(self.apart + self.stuck, default=0)
        self.refuse("U16", "VoidedFace", [it for it in self.apart if it == least])
        self.refuse("U15", "FaceStuck", [it for it in self.stuck if it == least])

    def frame(self, axes: int, location: int) -> Frame:
        """The axes of a placement or operator, with its offset."""
        point = references(self.exchange.attribute(axes, location))[0]
        found = self.axes[axes]
        return Frame(found.x, found.y, found.z, self.points[point][0])

    def frames_of(self, element: int) -> list[Frame]:
        """The frames through which an element's points go, its own first."""
        named = references(self.exchange.attribute(element, 5))
        chain = self.chain(named[0]) or [] if named else []
        relative = [references(self.exchange.attribute(it, 1))[0] for it in chain]
        return [self.frame(it, 0) for it in relative]

    def items_of(self, element: int) -> list[tuple[int, list[Frame]]]:
        """The face sets of an element's bodies, each with the operator through which it goes."""
        exchange, found = self.exchange, list[tuple[int, list[Frame]]]()
        for body in self.survey.bodies(exchange.by_id[element]):
            for item in references(exchange.attribute(body.id, 3)):
                if exchange.keyword(item) != ITEMS[2]:
                    found.append((item, []))
                    continue
                source = references(exchange.attribute(item, 0))[0]
                operator = self.frame(references(exchange.attribute(item, 1))[0], 2)
                mapped = references(exchange.attribute(source, 1))[0]
                found += [(it, [operator]) for it in references(exchange.attribute(mapped, 3))]
        return found

    def surface_of(self, element: int) -> list[Triangle]:
        """The triangles of an element; U10 where a corner is beyond the limit."""
        placed, frames = [], self.frames_of(element)
        for item, operator in self.items_of(element):
            for triangle in self.local[item]:
                a, b, c = triangle
                for frame in operator + frames:
                    a, b, c = frame.place(a), frame.place(b), frame.place(c)
                placed.append((a, b, c))
        if any(abs(it) > MOST_AWAY for corners in placed for corner in corners for it in corner):
            raise Refused("U10", "TooFar", id=element)
        return placed

    def element(self, id: int) -> Element:
        exchange = self.exchange
        keyword, name = exchange.keyword(id), exchange.attribute(id, 2)
        return Element(
            self.guid(id),
            (keyword or b"").decode(),
            text_of(name.spelled) if isinstance(name, Words) else "",
            self.tree.storey_of(id),
            self.surface_of(id),
        )

    def model(self) -> list[Element]:
        """The elements by rising identifier, after all that may be refused."""
        self.check_guids()
        self.check_chains()
        self.check_axes()
        self.check_items()
        self.check_indexes()
        self.check_points()
        self.check_corners()
        self.check_cutting()
        counts = (len(self.local[it]) for id in self.elements for it, _ in self.items_of(id))
        if sum(counts) > MOST_TRIANGLES:
            raise too_many("triangles")
        return sorted((self.element(id) for id in self.elements), key=lambda it: it.guid)


@lru_cache(maxsize=256)
def build(data: bytes, snap: bool) -> tuple[Element, ...]:
    """The elements of an upload; Refused by the first fault of its file."""
    return tuple(Building(read(data), snap).model())
