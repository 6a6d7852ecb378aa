"""Is a response one that the document describes? What was seen is counted by operation and status."""

from __future__ import annotations

import json
from collections import Counter
from http import HTTPStatus
from typing import Any

from .document import Document, Header, Operation, Response
from .schema_words import Schemas
from .wire import Reply

ORDER = ["Content-Type", "Allow", "X-Book-Turn", "Connection", "Content-Length"]


class Twice(ValueError):
    """An object has a member twice."""


def _once(pairs: list[tuple[str, Any]]) -> dict[str, Any]:
    found = dict(pairs)
    if len(found) != len(pairs):
        raise Twice("a member is there twice")
    return found


def _canonical(value: Any) -> bytes:
    text = json.dumps(value, sort_keys=True, separators=(",", ":"), ensure_ascii=False)
    return text.encode()


class Judge:
    """Judges responses, and keeps what was seen."""

    def __init__(self, document: Document) -> None:
        self.document = document
        self.schemas = Schemas(document)
        self.seen: Counter[tuple[str, int]] = Counter()
        self.codes: Counter[str] = Counter()
        self.count = 0

    def add(self, other: Judge) -> None:
        """Adds what another judge has seen."""
        self.seen += other.seen
        self.codes += other.codes
        self.count += other.count

    def _header_faults(self, described: Response, reply: Reply, with_body: bool) -> list[str]:
        faults = []
        names = [name for name, _ in reply.headers]
        if names != [it for it in ORDER if it in names]:
            faults.append(f"the fields of the head are {names}")
        if reply.field("Content-Type") != described.media:
            faults.append(f"Content-Type is {reply.field('Content-Type')}, not {described.media}")
        if with_body and reply.field("Content-Length") != str(len(reply.body)):
            faults.append(f"Content-Length is {reply.field('Content-Length')}")
        for name, header in described.headers.items():
            faults += self._one_header(name, header, reply.field(name))
        for name in names:
            if name not in described.headers and name not in ("Content-Type", "Content-Length"):
                faults.append(f"the field {name} isn't described")
        return faults

    def _one_header(self, name: str, header: Header, value: str | None) -> list[str]:
        if value is None:
            return [f"no field {name}"] if header.required else []
        whole = header.schema.get("type") == "integer"
        if whole and not value.isdecimal():
            return [f"{name} is {value!r}"]
        why = self.schemas.fault(header.schema, int(value) if whole else value)
        return [f"{name} is {value!r}: {why}"] if why else []

    def _turn_fault(self, described: Response, reply: Reply, tree: Any) -> list[str]:
        """An error's schema says whether a turn comes with it."""
        code = tree.get("code") if isinstance(tree, dict) else None
        schema = self.document.errors.get(code) if isinstance(code, str) else None
        if schema is None or reply.status < 400:
            return []
        self.codes[str(code)] += 1
        there = reply.field("X-Book-Turn") is not None
        if there != schema["x-book-turn"]:
            return [f"X-Book-Turn {'comes' if there else 'is missing'} with {code}"]
        return []

    def _body_faults(self, described: Response, reply: Reply) -> list[str]:
        try:
            tree = json.loads(reply.body.decode(), object_pairs_hook=_once)
        except ValueError as why:
            return [f"the body is no JSON: {why}"]
        faults = []
        if _canonical(tree) != reply.body:
            faults.append("members aren't in order, or there are blanks")
        why_not = self.schemas.fault(described.schema, tree)
        if why_not is not None:
            faults.append(f"the body doesn't fit, {why_not}")
        return faults + self._turn_fault(described, reply, tree)

    def judge(self, operation: Operation | None, reply: Reply, method: str = "GET") -> list[str]:
        """What is wrong with the response to a request for an operation, or for none."""
        self.count += 1
        name = operation.name if operation else "other requests"
        responses = operation.responses if operation else self.document.others
        described = responses.get(reply.status)
        if described is None:
            return [f"{name}: {reply.status} isn't described, {reply.body[:120]!r}"]
        self.seen[name, reply.status] += 1
        with_body = method != "HEAD"
        faults = self._header_faults(described, reply, with_body)
        if with_body:
            faults += self._body_faults(described, reply)
        elif reply.body:
            faults.append("a body behind HEAD")
        phrase = HTTPStatus(reply.status).phrase
        return [f"{name} {reply.status} {phrase}: {it}, {reply.body[:120]!r}" for it in faults]
