"""Frames: three signed axes and an offset in grid numbers, from directions and points."""

from dataclasses import dataclass
from fractions import Fraction

from tests.oracle.model_file.lengths import decimal_of
from tests.oracle.model_file.statements import Exchange, Number, Reference, Value

Vector = tuple[int, int, int]
Point = tuple[int, int, int]
Direction = list[Fraction]


@dataclass(frozen=True)
class Frame:
    """Where a point (u, v, w) goes: to the offset and u times x, v times y, w times z."""

    x: Vector
    y: Vector
    z: Vector
    offset: Point = (0, 0, 0)

    def place(self, point: Point) -> Point:
        u, v, w = point
        a, b, c = (
            o + u * x + v * y + w * z
            for o, x, y, z in zip(self.offset, self.x, self.y, self.z, strict=True)
        )
        return a, b, c


IDENTITY = Frame((1, 0, 0), (0, 1, 0), (0, 0, 1))


def number_of(value: Value) -> Fraction:
    """The value of a number whose form was looked at."""
    found = decimal_of(value.spelled) if isinstance(value, Number) else None
    assert found is not None
    return found


def numbers_of(value: Value) -> list[Fraction]:
    assert isinstance(value, list)
    return [number_of(it) for it in value]


def cleaned(exchange: Exchange, value: Value, absent: Vector) -> Direction:
    """A direction without its components that are below a millionth of the greatest."""
    if not isinstance(value, Reference):
        return [Fraction(it) for it in absent]
    given = numbers_of(exchange.attribute(value.id, 0))
    most = max(abs(it) for it in given)
    return [Fraction(0) if abs(it) * 1000000 < most else it for it in given]


def without(direction: Direction, *axes: Vector) -> Direction:
    """A direction without its components along axes."""
    return [
        it if not any(axis[n] for axis in axes) else Fraction(0) for n, it in enumerate(direction)
    ]


def axis_of(direction: Direction) -> Vector | None:
    """The signed axis of a direction with exactly one component."""
    if sum(it != 0 for it in direction) != 1:
        return None
    a, b, c = ((it > 0) - (it < 0) for it in direction)
    return a, b, c


def cross(a: Vector, b: Vector) -> Vector:
    return a[1] * b[2] - a[2] * b[1], a[2] * b[0] - a[0] * b[2], a[0] * b[1] - a[1] * b[0]


def two_axes(exchange: Exchange, along: Value, across: Value) -> tuple[Vector, Vector] | None:
    """Z from the direction along, X from the one across; None where one isn't along an axis."""
    z = axis_of(cleaned(exchange, along, (0, 0, 1)))
    if z is None:
        return None
    absent = (0, 1, 0) if z[0] else (1, 0, 0)
    x = axis_of(without(cleaned(exchange, across, absent), z))
    return None if x is None else (z, x)


def placement_axes(exchange: Exchange, id: int) -> Frame | None:
    """The axes of an axis placement, None where it is oblique."""
    found = two_axes(exchange, exchange.attribute(id, 1), exchange.attribute(id, 2))
    if found is None:
        return None
    z, x = found
    return Frame(x, cross(z, x), z)


def operator_axes(exchange: Exchange, id: int) -> Frame | None:
    """The axes of an operator, which may be mirrored; None where it is oblique."""
    found = two_axes(exchange, exchange.attribute(id, 4), exchange.attribute(id, 0))
    if found is None:
        return None
    z, x = found
    given = exchange.attribute(id, 1)
    across = without(cleaned(exchange, given, (0, 1, 0)), z, x)
    y = cross(z, x) if given is None and not any(across) else axis_of(across)
    return None if y is None else Frame(x, y, z)
