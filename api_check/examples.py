"""Is each example of the document the very bytes of the case that it names?"""

from __future__ import annotations

import json
from collections.abc import Callable, Iterator
from typing import Any

from .case_reader import CaseRequest, read_case
from .document import Document, Node, Operation
from .schema_words import Schemas


def compact(value: Any) -> bytes:
    """A JSON value as the server prints it, but for the order of its members."""
    return json.dumps(value, separators=(",", ":"), ensure_ascii=False).encode()


def _bytes(media: str, value: Any) -> bytes:
    return compact(value) if media == "application/json" else str(value).encode()


def _first_difference(one: bytes, other: bytes) -> str:
    at = next(
        (at for at, (a, b) in enumerate(zip(one, other)) if a != b), min(len(one), len(other))
    )
    return f"byte {at}: {one[at:at + 30]!r} here, {other[at:at + 30]!r} in the case"


class _Examples:
    def __init__(self, document: Document) -> None:
        self.document = document
        self.schemas = Schemas(document)
        self.count = 0
        self.faults: list[str] = []

    def _case(self, where: str, example: Node) -> tuple[CaseRequest, int, bytes] | None:
        try:
            requests, responses = read_case(example["x-case"])
            at = example["x-request"] - 1
            return requests[at], responses[at].status, responses[at].body
        except (KeyError, OSError, IndexError, ValueError) as why:
            self.faults.append(f"{where}: no case: {why!r}")
            return None

    def look(
        self,
        where: str,
        content: Node,
        body_of: Callable[[tuple[CaseRequest, int, bytes]], bytes],
        belongs: Callable[[CaseRequest, int], bool],
    ) -> None:
        """Compares the examples of one body with their cases."""
        for media, it in content.items():
            for name, example in it.get("examples", {}).items():
                self.count += 1
                at = f"{where}/{name}"
                found = self._case(at, example)
                if found is None:
                    continue
                if not belongs(found[0], found[1]):
                    self.faults.append(f"{at}: {example['x-case']} isn't a case of it")
                printed, wanted = _bytes(media, example["value"]), body_of(found)
                if printed != wanted:
                    self.faults.append(f"{at}: {_first_difference(printed, wanted)}")
                why = self.schemas.fault(it["schema"], example["value"])
                if why is not None:
                    self.faults.append(f"{at}: the schema doesn't take it, {why}")


def _users(document: Document) -> Iterator[tuple[str, Node, list[tuple[Operation, str]]]]:
    """Each response that is described once, with the operations and the status that have it."""
    users: dict[str, list[tuple[Operation, str]]] = {}
    nodes: dict[str, Node] = {}
    for operation in document.operations:
        item = document.tree["paths"][operation.path][operation.method.lower()]
        for status, node in item["responses"].items():
            name = node.get("$ref", f"{operation.name}/{status}")
            nodes[name] = document.at(node)
            users.setdefault(name, []).append((operation, status))
    for name, node in nodes.items():
        yield name, node, users[name]


def check_examples(document: Document) -> tuple[int, list[str]]:
    """How many examples there are, and what is wrong with them."""
    examples = _Examples(document)
    for name, node, users in _users(document):
        examples.look(
            name,
            node["content"],
            lambda found: found[2],
            lambda request, status, users=users: any(  # type: ignore[misc]
                it.fits(request.method, request.path) and int(described) == status
                for it, described in users
            ),
        )
    for status, node in document.tree["x-other-requests"].items():
        examples.look(
            f"other requests/{status}",
            document.at(node)["content"],
            lambda found: found[2],
            lambda request, got, status=status: got == int(status)  # type: ignore[misc]
            and not any(it.fits(request.method, request.path) for it in document.operations),
        )
    bodies: dict[int, Node] = {}
    for operation in document.operations:
        bodies[id(operation.body)] = operation.body
    for body in bodies.values():
        fitting = [it for it in document.operations if it.body is body]
        examples.look(
            f"{fitting[0].name}/body",
            body,
            lambda found: found[0].body,
            lambda request, status, fitting=fitting: status in (200, 201)  # type: ignore[misc]
            and any(it.fits(request.method, request.path) for it in fitting),
        )
    return examples.count, examples.faults
