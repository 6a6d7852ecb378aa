"""Values drawn from schemas: such as fit, and such as are broken at one place."""

from __future__ import annotations

import datetime
import re
from collections.abc import Callable
from typing import Any

from hypothesis import strategies as st

from .document import Document, Node

Values = st.SearchStrategy[Any]
LONG_TEXT, MANY = 9_000, 1_001
FIRST_DAY, LAST_DAY = datetime.datetime(1970, 1, 2), datetime.datetime(9999, 12, 28)
TEXTS = st.text(max_size=24)
WORDS = st.text(min_size=1, max_size=24)

JUNK: Values = st.one_of(
    st.none(),
    st.booleans(),
    st.integers(),
    st.floats(allow_nan=False, allow_infinity=False),
    st.text(max_size=30),
    st.lists(st.integers(), max_size=2),
    st.dictionaries(st.text(max_size=5), st.integers(), max_size=2),
    st.sampled_from(["x" * LONG_TEXT, "\u00e9" * 2_000, "\u00e9" * 600, "", "#12345", "0" * 22]),
    st.sampled_from([[{}] * MANY, ["l"] * 21, ["l" * 257], [[]], {"color": "#000000"}]),
    st.sampled_from([1.0, -0.5, 2**31, -(2**31) - 1, 2**63, 1001, -1]),
)


@st.composite
def dates(draw: Callable[[Values], Any]) -> str:
    """A moment by RFC 3339, some days after the first that is taken and before the last."""
    moment = draw(st.datetimes(min_value=FIRST_DAY, max_value=LAST_DAY))
    text = moment.replace(microsecond=0).isoformat()
    fraction = draw(st.sampled_from(["", ".5", ".123456789"]))
    offset = draw(st.sampled_from(["Z", "+00:00", "-11:30", "+14:00"]))
    return f"{text}{fraction}{offset}"


class Drawing:
    """Strategies for the schemas of a document, each made once."""

    def __init__(self, document: Document) -> None:
        self._document = document
        self._made: dict[int, tuple[Node, Values]] = {}

    def fits(self, schema: Node) -> Values:
        """Values that the schema takes, in most cases: what a word of it forbids is judged later."""
        node = self._document.at(schema)
        found = self._made.get(id(node))
        if found is None:
            found = (node, self._make(node))
            self._made[id(node)] = found
        return found[1]

    def _make(self, node: Node) -> Values:
        if "enum" in node:
            return st.sampled_from(node["enum"])
        if "oneOf" in node:
            return st.one_of([self.fits(it) for it in node["oneOf"]])
        kinds = node.get("type", "object")
        if isinstance(kinds, list):
            often = [it for it in kinds if it != "null"] * 3 + ["null"]
            return st.one_of([self._of_kind(node, it) for it in often])
        return self._of_kind(node, kinds)

    def _of_kind(self, node: Node, kind: str) -> Values:
        made: dict[str, Callable[[], Values]] = {
            "null": st.none,
            "boolean": st.booleans,
            "string": lambda: self._text(node),
            "integer": lambda: st.integers(node.get("minimum", -9), node.get("maximum", 10**6)),
            "array": lambda: st.lists(self.fits(node["items"]), max_size=3),
            "object": lambda: self._object(node),
        }
        return made[kind]()

    def _text(self, node: Node) -> Values:
        if node.get("format") == "date-time":
            return dates()
        if "pattern" in node:
            return st.from_regex(re.compile(f"(?:{node['pattern']})\\Z", re.ASCII))
        least = node.get("minLength", 0)
        return WORDS if least else TEXTS

    def _object(self, node: Node) -> Values:
        """Objects of one of the branches that the schema has, if it has some."""
        branches = node.get("anyOf", [{}])
        return st.one_of([self._members(node, it) for it in branches])

    def _members(self, node: Node, branch: Node) -> Values:
        names = {*node.get("required", []), *branch.get("required", [])}
        narrower = branch.get("properties", {})
        members = {
            name: self.fits({**it, **narrower[name]} if name in narrower else it)
            for name, it in node.get("properties", {}).items()
        }
        required = {name: it for name, it in members.items() if name in names}
        rest = {name: it for name, it in members.items() if name not in required}
        return st.fixed_dictionaries(required, optional=rest)

    def broken(self, schema: Node) -> Values:
        """A value that fits, with one place replaced, dropped or added."""
        node = self._document.at(schema)
        names = [*node.get("properties", {}), "another"]
        return st.builds(
            _break,
            self.fits(node),
            st.sampled_from(["replace", "drop", "add", "whole"]),
            st.integers(0, 2**16),
            st.sampled_from(names),
            JUNK,
        )


def _places(value: Any) -> list[tuple[Any, Any]]:
    """All members and items of a value, as the object or list that has them and their name in it."""
    found: list[tuple[Any, Any]] = []
    keys = (
        value if isinstance(value, dict) else range(len(value)) if isinstance(value, list) else []
    )
    for key in keys:
        found.append((value, key))
        found += _places(value[key])
    return found


def _copy(value: Any) -> Any:
    if isinstance(value, dict):
        return {key: _copy(it) for key, it in value.items()}
    return [_copy(it) for it in value] if isinstance(value, list) else value


def _break(value: Any, how: str, which: int, name: str, junk: Any) -> Any:
    value = _copy(value)
    places = _places(value)
    if how == "whole" or not places:
        return junk
    node, key = places[which % len(places)]
    if how == "drop" and isinstance(node, dict):
        del node[key]
    elif how == "add" and isinstance(node, dict):
        node[name] = junk
    else:
        node[key] = junk
    return value
