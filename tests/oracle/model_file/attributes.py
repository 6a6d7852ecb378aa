"""Which instances are used, and which attributes of theirs have which form: a table by keyword."""

from collections.abc import Callable
from dataclasses import dataclass
from functools import partial

from tests.oracle.faults import Refused
from tests.oracle.model_file.lengths import decimal_of, word_of
from tests.oracle.model_file.statements import (
    Enumeration,
    Exchange,
    Instance,
    Number,
    Reference,
    Typed,
    Value,
    Words,
    references,
)
from tests.oracle.model_file.texts import text_of

SUBJECTS = frozenset(
    b"IFC" + name
    for name in b"""BEAM BEAMSTANDARDCASE BUILDINGELEMENTPROXY CHIMNEY COLUMN COLUMNSTANDARDCASE
    COVERING CURTAINWALL DOOR DOORSTANDARDCASE ELEMENTASSEMBLY FOOTING FURNISHINGELEMENT FURNITURE
    MEMBER MEMBERSTANDARDCASE PILE PLATE PLATESTANDARDCASE RAILING RAMP RAMPFLIGHT ROOF
    SHADINGDEVICE SLAB SLABSTANDARDCASE STAIR STAIRFLIGHT TRANSPORTELEMENT WALL WALLSTANDARDCASE
    WINDOW WINDOWSTANDARDCASE DISTRIBUTIONELEMENT DISTRIBUTIONFLOWELEMENT FLOWSEGMENT FLOWFITTING
    FLOWTERMINAL FLOWCONTROLLER PIPESEGMENT PIPEFITTING DUCTSEGMENT DUCTFITTING CABLESEGMENT
    CABLECARRIERSEGMENT VALVE PUMP FAN BOILER TANK AIRTERMINAL DAMPER LIGHTFIXTURE OUTLET
    SANITARYTERMINAL""".split()
)
FACE_SETS = (b"IFCTRIANGULATEDFACESET", b"IFCPOLYGONALFACESET")
ITEMS = (*FACE_SETS, b"IFCMAPPEDITEM")
OPERATOR = b"IFCCARTESIANTRANSFORMATIONOPERATOR3D"
FACES = (b"IFCINDEXEDPOLYGONALFACE", b"IFCINDEXEDPOLYGONALFACEWITHVOIDS")
ROOTS = (
    b"IFCPROJECT",
    b"IFCBUILDINGSTOREY",
    b"IFCRELAGGREGATES",
    b"IFCRELCONTAINEDINSPATIALSTRUCTURE",
)
GUID = frozenset(b"0123456789ABCDEFGHIJKLMNOPQRSTUVWXYZabcdefghijklmnopqrstuvwxyz_$".decode())


class Flaw(Exception):
    """An attribute without its form; `to` is an instance that isn't there."""

    def __init__(self, to: int | None = None) -> None:
        super().__init__(to)
        self.to = to


# Looks at a value, and raises a flaw where it hasn't the form.
Form = Callable[[Exchange, Value], None]


def text(_: Exchange, value: Value) -> None:
    if not isinstance(value, Words):
        raise Flaw


def guid(_: Exchange, value: Value) -> None:
    if not isinstance(value, Words):
        raise Flaw
    spelled = text_of(value.spelled)
    if len(spelled) != 22 or not GUID.issuperset(spelled):
        raise Flaw


def enumeration(_: Exchange, value: Value) -> None:
    if not isinstance(value, Enumeration):
        raise Flaw


def number(_: Exchange, value: Value) -> None:
    if not isinstance(value, Number) or decimal_of(value.spelled) is None:
        raise Flaw


def whole(_: Exchange, value: Value) -> None:
    found = decimal_of(value.spelled) if isinstance(value, Number) else None
    if found is None or found.denominator != 1:
        raise Flaw


def measure(exchange: Exchange, value: Value) -> None:
    number(exchange, value.value if isinstance(value, Typed) else value)


def anything(_: Exchange, _value: Value) -> None:
    pass


def reference(exchange: Exchange, value: Value, keywords: tuple[bytes, ...] = ()) -> None:
    """A reference to an instance of one of these keywords, or of any where there is none."""
    if not isinstance(value, Reference):
        raise Flaw
    if exchange.find(value.id) is None:
        raise Flaw(value.id)
    if keywords and exchange.keyword(value.id) not in keywords:
        raise Flaw


def to(*keywords: bytes) -> Form:
    return partial(reference, keywords=keywords)


def listed(form: Form, least: int = 0, most: int | None = None) -> Form:
    """A list of so many values of a form; the first of them that hasn't it decides."""

    def check(exchange: Exchange, value: Value) -> None:
        if not isinstance(value, list):
            raise Flaw
        if len(value) < least or most is not None and len(value) > most:
            raise Flaw
        for item in value:
            form(exchange, item)

    return check


def or_omitted(form: Form) -> Form:
    def check(exchange: Exchange, value: Value) -> None:
        if value is not None:
            form(exchange, value)

    return check


@dataclass(frozen=True)
class Attribute:
    """An attribute of a row: its place, its form, which of the instances that it names are
    followed; where `may_lack`, it needn't be there. It counts where `counts` says so."""

    at: int
    form: Form
    follows: tuple[bytes, ...] = ()
    may_lack: bool = False
    counts: Callable[["Survey", Instance], bool] = lambda survey, instance: True


def one(at: int, *keywords: bytes, omitted: bool = False, may_lack: bool = False) -> Attribute:
    """An attribute that names an instance of one of these keywords, which is followed."""
    form = to(*keywords)
    return Attribute(at, or_omitted(form) if omitted else form, keywords, may_lack)


def is_length_by_conversion(_: "Survey", instance: Instance) -> bool:
    return len(instance.values) > 1 and word_of(instance.values[1]) == b"LENGTHUNIT"


def has_items(survey: "Survey", instance: Instance) -> bool:
    return survey.is_body(instance) or instance.id in survey.mapped


def has_body(survey: "Survey", instance: Instance) -> bool:
    return bool(survey.bodies(instance))


TRIPLE = listed(number, 3, 3)
REFERENCES = listed(to())
INDEXES = or_omitted(listed(whole))
LOOP = listed(whole, 3)
ROWS: dict[bytes, list[Attribute]] = {
    b"IFCPROJECT": [one(8, b"IFCUNITASSIGNMENT", omitted=True)],
    b"IFCUNITASSIGNMENT": [
        Attribute(0, REFERENCES, (b"IFCSIUNIT", b"IFCCONVERSIONBASEDUNIT")),
    ],
    b"IFCSIUNIT": [
        Attribute(1, enumeration),
        Attribute(2, or_omitted(enumeration)),
        Attribute(3, enumeration),
    ],
    b"IFCCONVERSIONBASEDUNIT": [
        Attribute(1, enumeration),
        Attribute(
            3,
            to(b"IFCMEASUREWITHUNIT"),
            (b"IFCMEASUREWITHUNIT",),
            counts=is_length_by_conversion,
        ),
    ],
    b"IFCMEASUREWITHUNIT": [Attribute(0, measure), one(1, b"IFCSIUNIT")],
    b"IFCBUILDINGSTOREY": [Attribute(2, or_omitted(text))],
    b"IFCRELAGGREGATES": [Attribute(4, to()), Attribute(5, REFERENCES)],
    b"IFCRELCONTAINEDINSPATIALSTRUCTURE": [Attribute(4, REFERENCES), Attribute(5, to())],
    b"IFCPRODUCTDEFINITIONSHAPE": [Attribute(2, REFERENCES, (b"IFCSHAPEREPRESENTATION",))],
    b"IFCSHAPEREPRESENTATION": [
        Attribute(1, or_omitted(text)),
        Attribute(3, listed(to(), 1), ITEMS, counts=has_items),
    ],
    b"IFCLOCALPLACEMENT": [
        one(0, b"IFCLOCALPLACEMENT", omitted=True),
        one(1, b"IFCAXIS2PLACEMENT3D"),
    ],
    b"IFCAXIS2PLACEMENT3D": [
        one(0, b"IFCCARTESIANPOINT"),
        one(1, b"IFCDIRECTION", omitted=True),
        one(2, b"IFCDIRECTION", omitted=True),
    ],
    b"IFCCARTESIANPOINT": [Attribute(0, TRIPLE)],
    b"IFCDIRECTION": [Attribute(0, TRIPLE)],
    b"IFCCARTESIANPOINTLIST3D": [Attribute(0, listed(TRIPLE, 1))],
    b"IFCTRIANGULATEDFACESET": [
        one(0, b"IFCCARTESIANPOINTLIST3D"),
        Attribute(3, listed(listed(whole, 3, 3), 1)),
        Attribute(4, INDEXES, may_lack=True),
    ],
    b"IFCPOLYGONALFACESET": [
        one(0, b"IFCCARTESIANPOINTLIST3D"),
        Attribute(2, listed(to(*FACES), 1), FACES),
        Attribute(3, INDEXES, may_lack=True),
    ],
    b"IFCINDEXEDPOLYGONALFACE": [Attribute(0, LOOP)],
    b"IFCINDEXEDPOLYGONALFACEWITHVOIDS": [Attribute(0, LOOP), Attribute(1, listed(LOOP, 1))],
    b"IFCMAPPEDITEM": [one(0, b"IFCREPRESENTATIONMAP"), Attribute(1, to(), (OPERATOR,))],
    b"IFCREPRESENTATIONMAP": [one(0, b"IFCAXIS2PLACEMENT3D"), one(1, b"IFCSHAPEREPRESENTATION")],
    OPERATOR: [
        one(0, b"IFCDIRECTION", omitted=True, may_lack=True),
        one(1, b"IFCDIRECTION", omitted=True, may_lack=True),
        one(2, b"IFCCARTESIANPOINT"),
        Attribute(3, or_omitted(number), may_lack=True),
        one(4, b"IFCDIRECTION", omitted=True, may_lack=True),
    ],
}
SUBJECT = [
    Attribute(0, guid),
    Attribute(2, or_omitted(text)),
    Attribute(5, or_omitted(to(b"IFCLOCALPLACEMENT")), (b"IFCLOCALPLACEMENT",), counts=has_body),
    one(6, b"IFCPRODUCTDEFINITIONSHAPE", omitted=True),
    Attribute(7, anything),
]


def row_of(keyword: bytes | None) -> list[Attribute]:
    """The row of a keyword."""
    return SUBJECT if keyword in SUBJECTS else ROWS[keyword or b""]


class Survey:
    """The used instances of a file; U6 or U7 where one hasn't its form."""

    def __init__(self, exchange: Exchange) -> None:
        self.exchange = exchange
        self.used: set[int] = set()
        self.mapped: set[int] = set()
        roots = (*ROOTS, *SUBJECTS)
        self.waiting = [it.id for it in exchange.listed if it.keyword in roots]
        while self.waiting:
            self.follow(exchange.by_id[self.waiting.pop()])
        flawed = [id for id in sorted(self.used) if self.is_flawed(exchange.by_id[id])]
        if flawed:
            raise self.fault_of(exchange.by_id[flawed[0]])

    def is_body(self, instance: Instance) -> bool:
        """Whether a shape representation is a body."""
        value = instance.values[1] if len(instance.values) > 1 else None
        return isinstance(value, Words) and text_of(value.spelled) == "Body"

    def bodies(self, element: Instance) -> list[Instance]:
        """The representations of a subject that are bodies, in their order."""
        exchange, found = self.exchange, []
        for shape in references(exchange.attribute(element.id, 6)):
            if exchange.keyword(shape) == b"IFCPRODUCTDEFINITIONSHAPE":
                for id in references(exchange.attribute(shape, 2)):
                    if exchange.keyword(id) == b"IFCSHAPEREPRESENTATION":
                        found.append(exchange.by_id[id])
        return [it for it in found if self.is_body(it)]

    def follow(self, instance: Instance) -> None:
        """Counts an instance as used, and has what it names looked at."""
        if instance.id not in self.used:
            self.used.add(instance.id)
            if instance.keyword == b"IFCREPRESENTATIONMAP":
                self.map(references(self.exchange.attribute(instance.id, 1)))
        for attribute in row_of(instance.keyword):
            if attribute.at >= len(instance.values) or not attribute.counts(self, instance):
                continue
            for id in references(instance.values[attribute.at]):
                if id not in self.used and self.exchange.keyword(id) in attribute.follows:
                    self.waiting.append(id)

    def map(self, representations: list[int]) -> None:
        """Counts representations as mapped, whose items are looked at again."""
        for id in representations:
            if self.exchange.keyword(id) == b"IFCSHAPEREPRESENTATION":
                self.mapped.add(id)
                self.waiting.append(id)

    def flaw_of(self, instance: Instance) -> Flaw | None:
        """The flaw of the first attribute that hasn't its form."""
        for attribute in row_of(instance.keyword):
            if not attribute.counts(self, instance):
                continue
            if attribute.at >= len(instance.values):
                if attribute.may_lack:
                    continue
                return Flaw()
            try:
                attribute.form(self.exchange, instance.values[attribute.at])
            except Flaw as flaw:
                return flaw
        return None

    def is_flawed(self, instance: Instance) -> bool:
        return self.flaw_of(instance) is not None

    def fault_of(self, instance: Instance) -> Refused:
        flaw = self.flaw_of(instance)
        if flaw is not None and flaw.to is not None:
            return Refused("U6", "Dangling", id=instance.id, to=flaw.to)
        return Refused("U7", "BadShape", id=instance.id)

    def of(self, *keywords: bytes) -> list[int]:
        """The used instances of these keywords, by rising number."""
        return sorted(id for id in self.used if self.exchange.keyword(id) in keywords)

    def elements(self) -> list[int]:
        """The subjects that have a body, by rising number."""
        by_id = self.exchange.by_id
        return [id for id in self.of(*SUBJECTS) if self.bodies(by_id[id])]

    def listing(self) -> list[int]:
        """The used representations whose items count: bodies and mapped ones."""
        by_id = self.exchange.by_id
        return [id for id in self.of(b"IFCSHAPEREPRESENTATION") if has_items(self, by_id[id])]
