"""Lists of topics by `$filter`, `$orderby`, `$skip` and `$top`."""

import operator
import re
from collections.abc import Callable, Sequence
from typing import Any

from tests.oracle.dates import seconds_of
from tests.oracle.faults import Tree

TEXTS = ("title", "topic_type", "topic_status", "priority", "assigned_to", "stage", "description")
TEXT_NAMES = (*TEXTS, "creation_author", "modified_author")
DATE_NAMES = ("creation_date", "modified_date", "due_date")
NAMES = (*TEXT_NAMES, *DATE_NAMES, "index")
MOST_BYTES = 4096
MOST_NESTED = 32
MOST_KEYS = 4
TOKEN = re.compile(rb"'(?:[^']|'')*'(?!')|[(),]|[0-9A-Za-z_+\-.:]+")
Test = Callable[[Tree], bool]
COMPARED: dict[str, Callable[[Any, Any], bool]] = {
    "eq": operator.eq,
    "ne": operator.ne,
    "gt": operator.gt,
    "ge": operator.ge,
    "lt": operator.lt,
    "le": operator.le,
}


class Bad(Exception):
    """A text goes on at this place as none of its grammar does."""

    def __init__(self, at: int) -> None:
        super().__init__(at)
        self.at = at


class Tokens:
    """The tokens of a text, each with its place, of which the first ones were taken."""

    def __init__(self, text: bytes) -> None:
        self.end = len(text)
        if self.end > MOST_BYTES:
            raise Bad(MOST_BYTES)
        self.left: list[tuple[int, str | None]] = []
        at = 0
        while at < self.end:
            if text[at : at + 1] == b" ":
                at += 1
                continue
            found = TOKEN.match(text, at)
            self.left.append((at, found[0].decode() if found else None))
            at = found.end() if found else self.end  # nothing comes after a byte without a token

    def seen(self) -> str | None:
        """The next token; None at the end and where there is none."""
        return self.left[0][1] if self.left else None

    def take(self, is_good: Callable[[str], bool]) -> str:
        """The next token, which has to be such a one."""
        if not self.left:
            raise Bad(self.end)
        at, token = self.left[0]
        if token is None or not is_good(token):
            raise Bad(at)
        self.left.pop(0)
        return token

    def one_of(self, *words: str) -> str:
        return self.take(lambda token: token in words)

    def finish(self) -> None:
        if self.left:
            raise Bad(self.left[0][0])


def is_text(token: str) -> bool:
    return token.startswith("'")


def unquoted(token: str) -> bytes:
    return token[1:-1].replace("''", "'").encode()


def is_index(token: str) -> bool:
    return re.fullmatch("[+-]?[0-9]+", token) is not None and -(2**31) <= int(token) < 2**31


def is_date(token: str) -> bool:
    return not is_text(token) and seconds_of(token) is not None


def value_of(topic: Tree, name: str) -> Any:
    """A member of a topic, as it compares, or None."""
    value = topic.get(name)
    if value is None or name == "index":
        return value
    return seconds_of(value) if name in DATE_NAMES else value.encode()


def literal_in(tokens: Tokens, name: str) -> Any:
    """The literal that a member is compared with."""
    if name in TEXT_NAMES:
        return unquoted(tokens.take(is_text))
    if name == "index":
        return int(tokens.take(is_index))
    return seconds_of(tokens.take(is_date))


def comparison(tokens: Tokens) -> Test:
    """A test of one member by an operator."""
    name = tokens.one_of(*NAMES)
    word = tokens.one_of(*COMPARED)
    if word in ("eq", "ne") and tokens.seen() == "null":
        tokens.one_of("null")
        return lambda topic: (value_of(topic, name) is None) == (word == "eq")
    literal = literal_in(tokens, name)

    def test(topic: Tree) -> bool:
        value = value_of(topic, name)
        return word == "ne" if value is None else COMPARED[word](value, literal)

    return test


def search(tokens: Tokens) -> Test:
    """A test by `contains`, whose word was taken."""
    tokens.one_of("(")
    name = tokens.one_of(*TEXT_NAMES, "labels")
    tokens.one_of(",")
    literal = unquoted(tokens.take(is_text))
    tokens.one_of(")")
    if name == "labels":
        return lambda topic: literal in [label.encode() for label in topic.get("labels", [])]
    return lambda topic: name in topic and literal in topic[name].encode()


def operand(tokens: Tokens, room: int) -> Test:
    """One operand, in which so many `not` and `(` may be open."""
    opening = ("not", "(") if room else ()
    word = tokens.seen()
    if word not in (*opening, "contains"):
        return comparison(tokens)
    tokens.one_of(word or "")
    if word == "contains":
        return search(tokens)
    if word == "not":
        denied = operand(tokens, room - 1)
        return lambda topic: not denied(topic)
    inner = joined(tokens, room - 1)
    tokens.one_of(")")
    return inner


def all_of(tests: Sequence[Test]) -> Test:
    return lambda topic: all(test(topic) for test in tests)


def any_of(tests: Sequence[Test]) -> Test:
    return lambda topic: any(test(topic) for test in tests)


def joined(tokens: Tokens, room: int) -> Test:
    """Operands joined by `and`, and these by `or`."""
    either = [[operand(tokens, room)]]
    while tokens.seen() in ("and", "or"):
        if tokens.one_of("and", "or") == "or":
            either.append([])
        either[-1].append(operand(tokens, room))
    return any_of([all_of(tests) for tests in either])


def filter_in(text: bytes) -> Test:
    """The filter that a text spells."""
    tokens = Tokens(text)
    test = joined(tokens, MOST_NESTED)
    tokens.finish()
    return test


def order_in(text: bytes) -> list[tuple[str, bool]]:
    """The members to order by, each with whether it falls."""
    tokens = Tokens(text)
    keys: list[tuple[str, bool]] = []
    while not keys or (tokens.seen() == "," and len(keys) < MOST_KEYS):
        if keys:
            tokens.one_of(",")
        name = tokens.one_of(*NAMES)
        said = tokens.one_of("asc", "desc") if tokens.seen() in ("asc", "desc") else "asc"
        keys.append((name, said == "desc"))
    tokens.finish()
    return keys


def listed(topics: list[Tree], query: dict[bytes, Any]) -> list[Tree]:
    """The topics that are listed, of all by their numbers: what the query says was read before."""
    found = [topic for topic in topics if query.get(b"$filter", lambda topic: True)(topic)]
    for name, falls in reversed(query.get(b"$orderby", [])):
        values = [(value_of(topic, name), topic) for topic in found]
        values.sort(key=lambda it: (0,) if it[0] is None else (1, it[0]), reverse=falls)
        found = [topic for _, topic in values]
    found = found[int(query.get(b"$skip", b"0")) :]
    return found[: int(query[b"$top"])] if b"$top" in query else found
