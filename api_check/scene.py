"""What a server is given before it is asked: a model with a clash, topics, and versions of which the first are gone."""

from __future__ import annotations

import json
import re
import time
from collections.abc import Mapping
from typing import Any

from .document import Operation
from .files import TWO_PIPES
from .wire import Client, Reply, Request

LIVE_VERSIONS = 16
RULES: dict[str, Any] = {"rules": [{"a": "*", "b": "*", "distance": 50}]}
WAIT_SECONDS = 60
BODIES: dict[str, Any] = {
    "TopicBody": {"title": "Pipe"},
    "CommentBody": {"comment": "Move it"},
    "ViewpointBody": {"components": {"selection": [{"ifc_guid": "0" * 22}]}},
    "Rules": RULES,
}


def project(number: int) -> str:
    """The identifier of a project."""
    return f"{number:08x}-0000-8000-8000-000000000000"


def guid(number: int) -> str:
    """The identifier of an object of the first project."""
    return f"{project(1)[:-12]}{number:012x}"


def target(operation: Operation, ids: Mapping[str, str]) -> str:
    """The path of an operation with its parts filled in."""
    return re.sub(r"\{(\w+)\}", lambda match: ids[match[1]], operation.path)


class NotReady(Exception):
    """The server didn't answer as it must for the checks to begin."""


class Scene:
    """The first project has a model `m` with one clash, and a topic; the versions of the second go on."""

    def __init__(self, client: Client) -> None:
        self.client = client
        self.ids: dict[str, str] = {
            "project_id": project(1),
            "place": "0",
            "model_name": "m",
        }

    def _json(self, method: str, path: str, tree: Any, wanted: int) -> dict[str, Any]:
        body = None if tree is None else json.dumps(tree).encode()
        return self._ask(Request(method, path, body), wanted)

    def _ask(self, request: Request, wanted: int) -> dict[str, Any]:
        reply: Reply = self.client.ask(request)
        if reply.status != wanted:
            raise NotReady(
                f"{request.method} {request.target} gave {reply.status} {reply.body[:100]!r}"
            )
        found: dict[str, Any] = json.loads(reply.body)
        return found

    def make(self, kind: str) -> str:
        """Makes a topic, or a comment or a viewpoint of the topic, and returns its identifier."""
        bcf = f"/bcf/3.0/projects/{self.ids['project_id']}/topics"
        bodies = {"topics": "TopicBody", "comments": "CommentBody", "viewpoints": "ViewpointBody"}
        path = bcf if kind == "topics" else f"{bcf}/{self.ids['topic_guid']}/{kind}"
        return str(self._json("POST", path, BODIES[bodies[kind]], 201)["guid"])

    def make_topic(self) -> None:
        """A new topic with a comment and a viewpoint becomes the one that is asked for."""
        self.ids["topic_guid"] = self.make("topics")
        self.ids["comment_guid"] = self.make("comments")
        self.ids["viewpoint_guid"] = self.make("viewpoints")

    def make_clash(self) -> None:
        """Rules and a model in the first project, until its one clash is found."""
        coord = f"/coord/1/projects/{project(1)}"
        self._json("PUT", f"{coord}/rules", RULES, 200)
        made = self._ask(Request("PUT", f"{coord}/models/m", TWO_PIPES), 201)
        self.ids["version"] = str(made["version"])
        end = time.monotonic() + WAIT_SECONDS
        path = f"{coord}/versions/{made['version']}/clashes"
        while (reply := self.client.ask(Request("GET", path))).status == 202:
            if time.monotonic() > end:
                raise NotReady(f"clashes aren't found within {WAIT_SECONDS} s")
            time.sleep(0.01)
        if reply.status != 200 or json.loads(reply.body)["total"] != 1:
            raise NotReady(f"GET {path} gave {reply.status} {reply.body[:100]!r}")

    def drop_versions(self) -> None:
        """So many versions of the second project that the first are gone."""
        for _ in range(LIVE_VERSIONS + 2):
            self._json("PUT", f"/coord/1/projects/{project(2)}/rules", RULES, 200)

    def prepare(self) -> None:
        """All of it."""
        self.make_clash()
        self.drop_versions()
        self.make_topic()
