"""Each status of each operation once, by a request that surely has it."""

from __future__ import annotations

import json
from collections.abc import Iterator
from dataclasses import dataclass, replace
from typing import Any

from .document import Document, Operation
from .faults_of_bytes import faulty
from .files import TWO_PIPES, files_of_cases
from .judge import Judge
from .list_texts import CODES
from .scene import BODIES, RULES, Scene, project, target
from .wire import CutOff, Reply, Request

UNKNOWN = "00000001-0000-8000-8000-0000ffffffff"
ABOVE, FAR = "999999", "999999"
BAD_BODIES: dict[str, list[tuple[str, Any]]] = {
    "TopicBody": [("B3", {}), ("B4", {"title": "t", "index": "1"})],
    "CommentBody": [("B4", {})],
    "ViewpointBody": [
        ("B4", {"index": 1.5}),
        ("B8", {"components": {"selection": [{"ifc_guid": "0"}]}}),
    ],
    "Rules": [
        ("C1", {}),
        ("C1", {"rules": [{"a": "*", "b": "*", "kind": "pierce", "distance": 5}]}),
        ("C2", {"rules": RULES["rules"] * 201}),
        ("C3", {"rules": [{"a": "*", "b": "*", "distance": 1001}]}),
    ],
}


@dataclass(frozen=True)
class Asked:
    """A request as bytes, with the status and the code that must come."""

    method: str
    data: bytes
    status: int
    code: str = ""


def body_name(operation: Operation) -> str:
    """The name of the schema of an operation's body, `file` for a model, or nothing."""
    if "application/json" in operation.body:
        return str(operation.body["application/json"]["schema"]["$ref"].rpartition("/")[2])
    return "file" if operation.body else ""


class Directed:
    """Makes the requests of a prepared server."""

    def __init__(self, document: Document, scene: Scene) -> None:
        self.document = document
        self.scene = scene

    @staticmethod
    def body(operation: Operation) -> bytes | None:
        """A body that is taken."""
        name = body_name(operation)
        if name == "file":
            return TWO_PIPES
        return json.dumps(BODIES[name]).encode() if name else None

    def good(self, operation: Operation) -> Request:
        """A request that is taken. What is deleted is made before."""
        ids = dict(self.scene.ids)
        kinds = {"deleteTopic": "topics", "deleteComment": "comments"}
        kinds["deleteViewpoint"] = "viewpoints"
        if operation.name in kinds:
            kind = kinds[operation.name]
            ids[f"{kind.rstrip('s')}_guid"] = self.scene.make(kind)
        if operation.name in ("putModel", "deleteModel"):
            ids["model_name"] = "other"
        return Request(operation.method, target(operation, ids), self.body(operation))

    def _at(self, operation: Operation, **ids: str) -> Request:
        where = target(operation, {**self.scene.ids, **ids})
        return Request(operation.method, where, self.body(operation))

    def _not_found(self, operation: Operation) -> Iterator[tuple[str, Request]]:
        """A request for each code of 404."""
        changes = {
            "H7": {"project_id": "x"},
            "K1": {"project_id": project(9)},
            "B1": {"topic_guid": UNKNOWN},
            "B2": {"comment_guid": UNKNOWN},
            "B7": {"viewpoint_guid": UNKNOWN},
            "K2": {"model_name": "none"},
            "K3": {"version": ABOVE},
            "K12": {"place": FAR},
        }
        for code in self.document.codes_of(operation.responses[404].schema):
            request = self._at(operation, **changes[code])
            if code == "B7" and "{viewpoint_guid}" not in operation.path:
                body = {"comment": "x", "viewpoint_guid": UNKNOWN}
                request = replace(request, body=json.dumps(body).encode())
            yield code, request

    def _bad_bodies(self, operation: Operation) -> Iterator[tuple[str, bytes]]:
        name = body_name(operation)
        if name == "file":
            for file in files_of_cases(self.document)[1]:
                yield "U", file
        for code, tree in BAD_BODIES.get(name, []):
            yield code, json.dumps(tree).encode()

    def of(self, operation: Operation) -> Iterator[Asked]:
        """All requests for an operation."""
        good = self.good(operation)
        method, status = operation.method, next(it for it in operation.responses if it < 300)
        plain = replace(good, body=None)
        for code_status, code, data in faulty(plain).values():
            yield Asked(method, data, code_status, code)
        gzip = replace(good, fields=(("Content-Encoding", "gzip"),))
        yield Asked(method, gzip.bytes(), 415, "H12")
        for turn, turn_status, turn_code in (("x", 400, "H13"), ("9" * 15, 409, "K13")):
            above = replace(good, fields=(("X-Book-Turn", turn),))
            yield Asked(method, above.bytes(), turn_status, turn_code)
        if operation.of("query"):
            part = operation.of("query")[-1]["name"]
            bad = replace(good, target=f"{good.target}?{part}=")
            yield Asked(method, bad.bytes(), 400, "H11")
        for it in operation.of("query"):
            if kind := it.get("x-text-of"):
                bad = replace(good, target=f"{good.target}?{it['name']}=")
                yield Asked(method, bad.bytes(), 400, CODES[kind])
        if "application/json" in operation.body:
            yield Asked(method, replace(good, body=b"[]").bytes(), 400, "H9")
        for code, body in self._bad_bodies(operation):
            yield Asked(method, replace(good, body=body).bytes(), 422, code)
        if 404 in operation.responses:
            for code, request in self._not_found(operation):
                yield Asked(method, request.bytes(), 404, code)
        if 410 in operation.responses:
            gone = self._at(operation, project_id=project(2), version="0")
            yield Asked(method, gone.bytes(), 410, "K4")
        yield Asked(method, good.bytes(), status)


def unexpected(asked: Asked, reply: Reply) -> list[str]:
    right = reply.status == asked.status
    if asked.code:
        right = right and f'"code":"{asked.code}'.encode() in reply.body
    if right:
        return []
    return [f"wanted {asked.status} {asked.code}, came {reply.status} {reply.body[:100]!r}"]


def check_directed(judge: Judge, scene: Scene) -> tuple[int, list[str]]:
    """How many were asked, and what went wrong."""
    count, faults = 0, []
    directed = Directed(judge.document, scene)
    for operation in judge.document.operations:
        for asked in directed.of(operation):
            count += 1
            try:
                reply = scene.client.send(asked.data, asked.method)
            except CutOff as why:
                faults.append(f"{operation.name}: {why}")
                continue
            faults += judge.judge(operation, reply, asked.method)
            faults += [f"{operation.name}: {it}" for it in unexpected(asked, reply)]
    return count, faults
