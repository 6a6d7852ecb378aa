"""Face sets: their points, and their faces as triples of places in the list of points."""

from tests.oracle.model_file.attributes import FACE_SETS, FACES, Survey
from tests.oracle.model_file.frames import number_of
from tests.oracle.model_file.statements import Exchange, Value, references

Loop = list[int]


def wholes(value: Value) -> Loop:
    """A list of whole numbers."""
    assert isinstance(value, list)
    return [int(number_of(it)) for it in value]


def is_polygonal(exchange: Exchange, id: int) -> bool:
    return exchange.keyword(id) == FACE_SETS[1]


def faces_of(exchange: Exchange, id: int) -> list[int]:
    """The polygonal faces that a set lists, none of a triangulated one."""
    return references(exchange.attribute(id, 2)) if is_polygonal(exchange, id) else []


def loops_of_face(exchange: Exchange, face: int) -> list[Loop]:
    """The outer loop of a polygonal face, and those of its voids."""
    loops = [wholes(exchange.attribute(face, 0))]
    if exchange.keyword(face) == FACES[1]:
        voids = exchange.attribute(face, 1)
        assert isinstance(voids, list)
        loops += [wholes(it) for it in voids]
    return loops


def loops_of(exchange: Exchange, id: int) -> list[Loop]:
    """All loops of a set, by their indexes as they are spelled."""
    if is_polygonal(exchange, id):
        return [it for face in faces_of(exchange, id) for it in loops_of_face(exchange, face)]
    listed = exchange.attribute(id, 3)
    assert isinstance(listed, list)
    return [wholes(it) for it in listed]


def point_index(exchange: Exchange, id: int) -> Loop | None:
    """The list of points by which a set's indexes go, where it has one."""
    value = exchange.attribute(id, 3 if is_polygonal(exchange, id) else 4)
    return None if value is None else wholes(value)


def points_of(exchange: Exchange, id: int) -> int:
    """The point list of a set."""
    return references(exchange.attribute(id, 0))[0]


def count_of_points(exchange: Exchange, id: int) -> int:
    listed = exchange.attribute(points_of(exchange, id), 0)
    assert isinstance(listed, list)
    return len(listed)


def has_bad_index(exchange: Exchange, id: int) -> bool:
    """Whether an index of a set counts nothing."""
    index, count = point_index(exchange, id), count_of_points(exchange, id)
    through = index or []
    most = count if index is None else len(through)
    loops = loops_of(exchange, id)
    return any(not 1 <= it <= count for it in through) or any(
        not 1 <= it <= most for loop in loops for it in loop
    )


def places(exchange: Exchange, id: int, loop: Loop) -> Loop:
    """The places in the point list that a loop's indexes mean, from 0."""
    index = point_index(exchange, id)
    return [(it if index is None else index[it - 1]) - 1 for it in loop]


def sets_of(survey: Survey) -> list[int]:
    """The used face sets, by rising number."""
    return survey.of(*FACE_SETS)
