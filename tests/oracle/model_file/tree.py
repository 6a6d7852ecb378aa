"""Containers and wholes: the way up from an object, and the storey on it."""

from tests.oracle.faults import Refused
from tests.oracle.model_file.attributes import Survey
from tests.oracle.model_file.statements import Words, references
from tests.oracle.model_file.texts import text_of


class Tree:
    """The containers and the wholes of all objects; U18 where they are at odds."""

    def __init__(self, survey: Survey) -> None:
        self.exchange = survey.exchange
        self.containers: dict[int, set[int]] = {}
        self.wholes: dict[int, set[int]] = {}
        for id in survey.of(b"IFCRELCONTAINEDINSPATIALSTRUCTURE"):
            self.join(self.containers, id, members=4, above=5)
        for id in survey.of(b"IFCRELAGGREGATES"):
            self.join(self.wholes, id, members=5, above=4)
        several = [it for above in self.both() for it in above if len(above[it]) > 1]
        faulty = several + self.looping()
        if faulty:
            raise Refused("U18", "TreeFault", id=min(faulty))

    def both(self) -> list[dict[int, set[int]]]:
        return [self.containers, self.wholes]

    def join(self, above_of: dict[int, set[int]], relation: int, members: int, above: int) -> None:
        """Notes what a relation says of its members."""
        over = references(self.exchange.attribute(relation, above))
        for member in references(self.exchange.attribute(relation, members)):
            above_of.setdefault(member, set()).update(over)

    def above(self, id: int) -> int | None:
        """The next object on the way up: the container, else the whole; none where there are
        two."""
        found = self.containers.get(id) or self.wholes.get(id) or set()
        return next(iter(found)) if len(found) == 1 else None

    def looping(self) -> list[int]:
        """The objects that come again on their own way up."""
        state: dict[int, int] = {}  # by which start it was met first
        loops = []
        for start in [*self.containers, *self.wholes]:
            at: int | None = start
            while at is not None and at not in state:
                state[at] = start
                at = self.above(at)
            if at is not None and state[at] == start:
                loops += self.loop_from(at)
                state[at] = start
        return loops

    def loop_from(self, id: int) -> list[int]:
        """The members of the loop that an object may be in."""
        members, at = [id], self.above(id)
        while at is not None and at != id and at not in members:
            members.append(at)
            at = self.above(at)
        return members if at == id else []

    def storey_of(self, id: int) -> str | None:
        """The name of the first storey above an object."""
        at = self.above(id)
        while at is not None and self.exchange.keyword(at) != b"IFCBUILDINGSTOREY":
            at = self.above(at)
        if at is None:
            return None
        name = self.exchange.attribute(at, 2)
        return text_of(name.spelled) if isinstance(name, Words) else ""
