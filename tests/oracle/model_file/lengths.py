"""The length unit of a file, and the grid: a length's number of tenths of a millimetre."""

import re
from dataclasses import dataclass
from fractions import Fraction

from tests.oracle.faults import Refused
from tests.oracle.model_file.statements import (
    Enumeration,
    Exchange,
    Number,
    Reference,
    Typed,
    references,
)

PER_MM = 10
MOST_AWAY = 800000 * PER_MM
NUMBER = re.compile(rb"([+-]?)([0-9]+)(?:\.([0-9]*))?(?:[Ee]([+-]?[0-9]+))?")
MOST_DIGITS, MOST_EXPONENT = 34, 400
# The powers of ten of a millimetre that the prefixes of a metre give.
PREFIXES = {
    None: 3,
    b"KILO": 6,
    b"HECTO": 5,
    b"DECA": 4,
    b"DECI": 2,
    b"CENTI": 1,
    b"MILLI": 0,
    b"MICRO": -3,
}
INCH, FOOT = Fraction(254, 10), Fraction(3048, 10)


def decimal_of(spelled: bytes) -> Fraction | None:
    """The value of a number; None where it has more than 34 digits that count, or an exponent
    beyond 400."""
    found = NUMBER.fullmatch(spelled)
    if not found or len(spelled) > 33554432:
        return None
    sign, before, behind, exponent = found.groups()
    behind = behind or b""
    if len((before + behind).strip(b"0")) > MOST_DIGITS:
        return None
    size = (exponent or b"0").lstrip(b"+-").lstrip(b"0")
    if len(size) > 3 or int(size or b"0") > MOST_EXPONENT:
        return None
    power = (-1 if (exponent or b"").startswith(b"-") else 1) * int(size or b"0") - len(behind)
    digits = (before + behind).lstrip(b"0")
    power += len(digits) - len(digits.rstrip(b"0"))
    value = int(digits.rstrip(b"0") or b"0") * Fraction(10) ** power
    return -value if sign == b"-" else value


def grid_number(value: Fraction, scale: Fraction, snap: bool) -> int | None:
    """The grid number of a length in units of so many millimetres; None where it has none. It may
    be too far."""
    tenths = value * scale * PER_MM
    away = int(abs(tenths) + Fraction(1, 2))
    nearest = away if tenths >= 0 else -away
    off = abs(tenths - nearest) >= Fraction(PER_MM, 1000)
    return None if off and not snap else nearest


def word_of(value: object) -> bytes | None:
    return value.word if isinstance(value, Enumeration) else None


def is_length(exchange: Exchange, id: int) -> bool:
    """Whether it is a unit of length, of either kind."""
    return (
        exchange.keyword(id) in (b"IFCSIUNIT", b"IFCCONVERSIONBASEDUNIT")
        and word_of(exchange.attribute(id, 1)) == b"LENGTHUNIT"
    )


def metre_of(exchange: Exchange, id: int) -> Fraction | None:
    """How many millimetres a unit of the metre has."""
    if not is_length(exchange, id) or exchange.keyword(id) != b"IFCSIUNIT":
        return None
    prefix = word_of(exchange.attribute(id, 2))
    if word_of(exchange.attribute(id, 3)) != b"METRE" or prefix not in PREFIXES:
        return None
    return Fraction(10) ** PREFIXES[prefix]


@dataclass(frozen=True)
class Conversion:
    """The measure of a conversion-based unit: so many of a unit of so many millimetres."""

    count: Fraction
    millimetres: Fraction

    def unit(self) -> Fraction | None:
        """The inch or the foot that it is, in millimetres."""
        size = self.count * self.millimetres
        near = (it for it in (INCH, FOOT) if abs(size - it) < Fraction(1, 1000000))
        return next(near, None)


def converted(exchange: Exchange, id: int) -> Fraction | None:
    """How many millimetres a conversion-based unit has, if it is an inch or a foot."""
    measure = exchange.attribute(id, 3)
    if not isinstance(measure, Reference):
        return None
    value, unit = exchange.attribute(measure.id, 0), exchange.attribute(measure.id, 1)
    number = value.value if isinstance(value, Typed) else value
    if not isinstance(number, Number) or not isinstance(unit, Reference):
        return None
    count, millimetres = decimal_of(number.spelled), metre_of(exchange, unit.id)
    if count is None or millimetres is None:
        return None
    return Conversion(count, millimetres).unit()


def unit_of(exchange: Exchange, id: int) -> Fraction | None:
    """How many millimetres a unit of length has, where the profile takes it."""
    is_metre = exchange.keyword(id) == b"IFCSIUNIT"
    return metre_of(exchange, id) if is_metre else converted(exchange, id)


def length_unit(exchange: Exchange) -> Fraction:
    """How many millimetres the file's one unit of length has; U8 where it hasn't one that the
    profile takes."""
    projects = sorted(it.id for it in exchange.listed if it.keyword == b"IFCPROJECT")
    fault = Refused("U8", "LengthUnit", id=projects[0] if projects else 0)
    assignment = exchange.attribute(projects[0], 8) if len(projects) == 1 else None
    if not isinstance(assignment, Reference):
        raise fault
    listed = set(references(exchange.attribute(assignment.id, 0)))
    lengths = [id for id in listed if is_length(exchange, id)]
    unit = unit_of(exchange, lengths[0]) if len(lengths) == 1 else None
    if unit is None:
        raise fault
    return unit
