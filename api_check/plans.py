"""Plans of requests, drawn from the document alone: nothing that is drawn depends on what the server answered."""

from __future__ import annotations

import json
from collections.abc import Callable
from dataclasses import dataclass
from functools import lru_cache
from typing import Any

from hypothesis import strategies as st

from .document import Document, Node, Operation
from .drawing import Drawing, Values
from .faults_of_bytes import faulty
from .list_texts import TEXTS
from .wire import Request

USERS = ("", "eva", "j\u00f6rg", "u" * 128)
NO_JSON = (b"", b"{", b"[]", b"null", b"\xff", b'{"title":}', b"{}{}")
ODD_QUERIES = ("", "0", "-1", "1001", "snap", "SNAP", "x", "1" * 16)
FAULTS = tuple(faulty(Request("GET", "/")))
LARGE = 2**20


@dataclass(frozen=True, repr=False)
class Plan:
    """What is asked, but for the objects that only the running server knows."""

    operation: Operation
    which: int
    spelling: int
    odd: dict[str, str]
    query: tuple[tuple[str, str], ...]
    tree: Any
    data: bytes | None
    file: int
    user: str | None
    gzip: bool
    fault: str | None

    def body(self, files: list[bytes]) -> bytes | None:
        """The bytes of the body."""
        if "application/json" in self.operation.body:
            ascii_only = self.which % 2 == 0
            if self.data is not None:
                return self.data
            return json.dumps(self.tree, ensure_ascii=ascii_only).encode()
        return files[self.file % len(files)] if self.operation.body else self.data


@lru_cache(maxsize=None)
def _seldom(one_in: int) -> Values:
    return st.sampled_from((True,) + (False,) * (one_in - 1))


class _Parts:
    """The strategies for one operation, each made once."""

    def __init__(self, drawing: Drawing, operation: Operation) -> None:
        self.operation = operation
        self.path = [it["name"] for it in operation.of("path")]
        self.query = [(it["name"], self._values(drawing, it)) for it in operation.of("query")]
        self.trees: Values | None = None
        if "application/json" in operation.body:
            schema = operation.body["application/json"]["schema"]
            good, bad = drawing.fits(schema), drawing.broken(schema)
            self.trees = st.one_of(good, good, bad)

    @staticmethod
    def _values(drawing: Drawing, part: Node) -> Values:
        """What a part of the query is asked with."""
        if "x-text-of" in part:
            return st.sampled_from(sorted(TEXTS[part["x-text-of"]]))
        return st.one_of(drawing.fits(part["schema"]), st.sampled_from(ODD_QUERIES))


ODD_PARTS = st.one_of(
    st.uuids().map(str),
    st.sampled_from(["0" * 16, "newest", "x", "%7B", "1" * 16]),
    st.from_regex(r"\A[A-Za-z0-9._~-]{1,70}\Z"),
)
NUMBERS, SPELLINGS = st.integers(0, LARGE), st.integers(0, 17)
HOW_OFTEN = st.sampled_from([0, 0, 0, 1, 1, 1, 1, 2])
OTHER_DATA = st.sampled_from([None, None, None, b"", b"x"])
WRONG_DATA = st.sampled_from(NO_JSON)
ANY_USER = st.sampled_from([None, None, *USERS])
ANY_FAULT = st.sampled_from(FAULTS)


class Plans:
    """The strategies of plans."""

    def __init__(self, document: Document) -> None:
        drawing = Drawing(document)
        self._parts = {it.name: _Parts(drawing, it) for it in document.operations}

    def shares(self, count: int) -> dict[str, int]:
        """How many of so many plans are for each operation. What has a body gets more."""
        weights = {
            name: 3 if it.operation.body else 2 if it.query else 1
            for name, it in self._parts.items()
        }
        total = sum(weights.values())
        return {name: max(1, count * weight // total) for name, weight in weights.items()}

    @staticmethod
    def _query(draw: Callable[[Values], Any], parts: _Parts) -> list[tuple[str, str]]:
        query = []
        for name, values in parts.query:
            query += [(name, str(draw(values))) for _ in range(draw(HOW_OFTEN))]
        return query + [("other", "x")] * draw(_seldom(8))

    @staticmethod
    def _data(draw: Callable[[Values], Any], parts: _Parts) -> bytes | None:
        """Bytes in place of a JSON body, or a body where none is asked for."""
        if parts.trees is not None:
            return draw(WRONG_DATA) if draw(_seldom(20)) else None
        return None if parts.operation.body else draw(OTHER_DATA)

    def _draw(self, draw: Callable[[Values], Any], name: str) -> Plan:
        parts = self._parts[name]
        return Plan(
            operation=parts.operation,
            which=draw(NUMBERS),
            spelling=draw(SPELLINGS),
            odd={name: draw(ODD_PARTS) for name in parts.path if draw(_seldom(16))},
            query=tuple(self._query(draw, parts)),
            tree=None if parts.trees is None else draw(parts.trees),
            data=self._data(draw, parts),
            file=draw(NUMBERS),
            user=draw(ANY_USER),
            gzip=draw(_seldom(40)),
            fault=draw(ANY_FAULT) if draw(_seldom(30)) else None,
        )

    def of(self, name: str) -> st.SearchStrategy[Plan]:
        """Plans for an operation, as hypothesis draws them."""
        return st.composite(self._draw)(name)
