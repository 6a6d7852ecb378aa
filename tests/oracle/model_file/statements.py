"""The instances of a Part 21 file, by its grammar."""

from collections.abc import Callable
from dataclasses import dataclass, field
from typing import NamedTuple

from tests.oracle.faults import Refused
from tests.oracle.model_file.texts import text_of
from tests.oracle.model_file.tokens import Token, Tokens, bad_statement, value_of_name

MOST_BYTES, MOST_INSTANCES, MOST_VALUES, DEEPEST = 33554432, 1000000, 8000000, 32


class Number(NamedTuple):
    """A number by its spelling."""

    spelled: bytes


class Words(NamedTuple):
    """A text, by the bytes between its apostrophes."""

    spelled: bytes


class Enumeration(NamedTuple):
    """An enumeration, by what is between its points."""

    word: bytes


class Bits(NamedTuple):
    """A binary."""

    spelled: bytes


class Reference(NamedTuple):
    """The name of an instance."""

    id: int


@dataclass
class Typed:
    """A value in the parentheses of a type."""

    keyword: bytes
    value: "Value"


# None is an omitted or derived value ($, *).
Value = None | Number | Words | Enumeration | Bits | Reference | Typed | list["Value"]


@dataclass
class Instance:
    """An instance; a complex one has neither keyword nor values."""

    id: int
    keyword: bytes | None
    values: list[Value]


@dataclass
class Exchange:
    """A file by its instances."""

    header: list[tuple[bytes, list[Value]]] = field(default_factory=list)
    listed: list[Instance] = field(default_factory=list)
    values: int = 0
    by_id: dict[int, Instance] = field(default_factory=dict)

    def find(self, id: int) -> Instance | None:
        return self.by_id.get(id)

    def keyword(self, id: int) -> bytes | None:
        found = self.by_id.get(id)
        return found.keyword if found else None

    def attribute(self, id: int, at: int) -> Value:
        """An attribute, None also where the instance has fewer."""
        values = self.by_id[id].values
        return values[at] if at < len(values) else None


def references(value: Value) -> list[int]:
    """The instances that a list of references names, or a reference by itself."""
    items = value if isinstance(value, list) else [value]
    return [it.id for it in items if isinstance(it, Reference)]


LEAVES: dict[str, Callable[[bytes], Value]] = {
    "number": Number,
    "text": lambda text: Words(text[1:-1]),
    "enumeration": lambda text: Enumeration(text[1:-1]),
    "bits": lambda text: Bits(text[1:-1]),
    "name": lambda text: Reference(value_of_name(text[1:]) or 0),
}


def too_many(what: str) -> Refused:
    return Refused("U19", "TooMany", what=what)


class Open:
    """A parenthesis that is open: what it holds so far, and the type whose value it holds."""

    def __init__(self, keyword: bytes | None = None) -> None:
        self.keyword, self.items = keyword, list[Value]()

    def closed(self) -> Value:
        return self.items if self.keyword is None else Typed(self.keyword, self.items[0])


def leaf_of(token: Token) -> Value:
    """The value that a token is by itself."""
    if token.kind in LEAVES:
        return LEAVES[token.kind](token.text)
    if token.text in (b"$", b"*"):
        return None
    raise bad_statement(token.at)


def opened(tokens: Tokens, token: Token, deep: bool) -> Open:
    """The list or the typed value that a token opens."""
    if deep:
        raise bad_statement(token.at)
    if token.kind == "word":
        tokens.expect(b"(")
        return Open(token.text.upper())
    return Open()


def values_of(tokens: Tokens, deepest: int | None) -> tuple[list[Value], int]:
    """The values up to the parenthesis that closes them, the opening one is taken; and how many,
    where each list and typed value counts one. So many parentheses may be open, these among
    them."""
    open_ones, count, may_close = [Open()], 0, True
    while True:
        token = tokens.need()
        if token.kind == "word" or token.text == b"(":
            deep = deepest is not None and len(open_ones) >= deepest
            open_ones.append(opened(tokens, token, deep))
            count, may_close = count + 1, token.kind != "word"
            continue
        if not (may_close and token.text == b")"):
            open_ones[-1].items.append(leaf_of(token))
            count, token = count + 1, tokens.need()
        while token.text == b")" and len(open_ones) > 1:
            done = open_ones.pop()
            open_ones[-1].items.append(done.closed())
            token = tokens.need()
        if token.text == b")":
            return open_ones[0].items, count
        if token.text != b"," or open_ones[-1].keyword is not None:
            raise bad_statement(token.at)
        may_close = False


def complex_values(tokens: Tokens) -> None:
    """What a complex instance holds, the first parenthesis is taken; it isn't kept."""
    token = tokens.need()
    if token.kind != "word":
        raise bad_statement(token.at)
    while token.kind == "word":
        tokens.expect(b"(")
        values_of(tokens, DEEPEST - 1)
        token = tokens.need()
    if token.text != b")":
        raise bad_statement(token.at)


def instance_of(tokens: Tokens, name: Token) -> tuple[Instance, int]:
    """The instance behind its name, and how many values it has."""
    number = value_of_name(name.text[1:]) or 0
    tokens.expect(b"=")
    token = tokens.need()
    if token.kind == "word":
        tokens.expect(b"(")
        values, count = values_of(tokens, DEEPEST)
        made = Instance(number, token.text.upper(), values)
    elif token.text == b"(":
        complex_values(tokens)
        made, count = Instance(number, None, []), 0
    else:
        raise bad_statement(token.at)
    tokens.expect(b";")
    return made, count


def header_of(tokens: Tokens, exchange: Exchange) -> None:
    """The statements of the header, up to its end."""
    while True:
        word = tokens.need()
        if word.kind != "word":
            raise bad_statement(word.at)
        ends = word.text.upper() == b"ENDSEC"
        token = tokens.expect(b"(", b";") if ends else tokens.expect(b"(")
        if token.text == b";":
            return
        exchange.header.append((word.text.upper(), values_of(tokens, None)[0]))
        tokens.expect(b";")


def begin(tokens: Tokens) -> None:
    """The first two tokens, U1 where they are others."""
    try:
        tokens.expect(b"ISO-10303-21")
        tokens.expect(b";")
    except Refused:
        raise Refused("U1", "NotPart21") from None


def read(data: bytes) -> Exchange:
    """The instances of a file, with its faults up to that of two of one number."""
    if len(data) > MOST_BYTES:
        raise too_many("bytes")
    tokens, exchange = Tokens(data), Exchange()
    begin(tokens)
    for text in (b"HEADER", b";"):
        tokens.expect(text)
    header_of(tokens, exchange)
    for text in (b"DATA", b";"):
        tokens.expect(text)
    while True:
        token = tokens.need()
        if token.kind != "name":
            break
        made, count = instance_of(tokens, token)
        exchange.listed.append(made)
        exchange.values += count
    if token.text.upper() != b"ENDSEC":
        raise bad_statement(token.at)
    for text in (b";", b"END-ISO-10303-21", b";"):
        tokens.expect(text)
    check_file(exchange)
    return exchange


def names_schema(exchange: Exchange) -> bool:
    """Whether the header names the schema IFC4, exactly once."""
    found = [values for word, values in exchange.header if word == b"FILE_SCHEMA"]
    if len(found) != 1 or len(found[0]) != 1 or not isinstance(found[0][0], list):
        return False
    names = found[0][0]
    return (
        len(names) == 1
        and isinstance(names[0], Words)
        and text_of(names[0].spelled).upper() == "IFC4"
        and text_of(names[0].spelled).isascii()
    )


def check_file(exchange: Exchange) -> None:
    """The faults of a file whose grammar is right, in their order."""
    if not names_schema(exchange):
        raise Refused("U4", "WrongSchema")
    if len(exchange.listed) > MOST_INSTANCES:
        raise too_many("instances")
    if exchange.values > MOST_VALUES:
        raise too_many("values")
    twice = []
    for made in exchange.listed:
        if made.id in exchange.by_id:
            twice.append(made.id)
        exchange.by_id[made.id] = made
    if twice:
        raise Refused("U5", "DoubleId", id=min(twice))
