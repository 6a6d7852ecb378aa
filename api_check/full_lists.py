"""507 of what is counted by itself: topics, comments, viewpoints, and the elements of a version."""

from __future__ import annotations

import json
import socket
import time
from dataclasses import dataclass, field

from .document import Operation
from .files import many_elements
from .judge import Judge
from .scene import BODIES, Scene, guid, project, target
from .server import HOST, Server
from .wire import Client, Request

MOST_TOPICS, MOST_COMMENTS, MOST_VIEWPOINTS, MOST_ELEMENTS = 10_000, 100_000, 20_000, 100_000
MOST_SECONDS = 120
TRIED = 300
ANOTHER_TOPIC = 10  # the first three numbers are a topic, its comment and its viewpoint
RUN = 200
RUNS_OF_A_CONNECTION = 40
SECONDS = 60


@dataclass
class ListsResult:
    """What went wrong, and why the lists weren't filled."""

    count: int = 0
    faults: list[str] = field(default_factory=list)
    reason: str = ""


class Lists:
    """A server whose lists are filled by runs of requests that don't wait for each other."""

    def __init__(self, judge: Judge, server: Server) -> None:
        self.judge = judge
        self.port = server.port
        self.scene = Scene(Client(server.port))
        self.scene.make_clash()
        self.scene.make_topic()
        self.result = ListsResult()

    def _request(self, operation: Operation, body: str | None) -> Request:
        data = None if body is None else json.dumps(BODIES[body]).encode()
        return Request(operation.method, target(operation, self.scene.ids), data)

    def _run(self, link: socket.socket, data: bytes, count: int) -> None:
        """Sends one request so many times, and reads until all are answered 201."""
        link.sendall(data * count)
        came = b""
        while came.count(b"HTTP/1.1 ") < count or not came.endswith(b"}"):
            piece = link.recv(1 << 20)
            if not piece:
                break
            came += piece
        made = came.count(b"HTTP/1.1 201 Created\r\n")
        if made != count:
            raise OSError(f"{made} of {count} were created: {came[-200:]!r}")

    def fill(self, name: str, body: str, count: int) -> None:
        """Makes so many by an operation."""
        data = self._request(self.judge.document.named(name), body).bytes()
        runs = [RUN] * (count // RUN) + [count % RUN] * (count % RUN > 0)
        for at in range(0, len(runs), RUNS_OF_A_CONNECTION):
            with socket.create_connection((HOST, self.port), timeout=SECONDS) as link:
                for size in runs[at : at + RUNS_OF_A_CONNECTION]:
                    self._run(link, data, size)
        self.result.count += count

    def refused(self, name: str, body: str | None, code: str) -> None:
        """The next one has to be refused by this code."""
        operation = self.judge.document.named(name)
        self.refused_request(operation, self._request(operation, body), code)

    def refused_request(self, operation: Operation, request: Request, code: str) -> None:
        """This request has to be refused by this code."""
        reply = self.scene.client.ask(request)
        self.result.count += 1
        self.result.faults += self.judge.judge(operation, reply, operation.method)
        if reply.status != 507 or f'"code":"{code}"'.encode() not in reply.body:
            came = f"{reply.status} {reply.body[:100]!r}"
            self.result.faults.append(f"{operation.name}: wanted 507 {code}, came {came}")

    def delete_another_topic(self) -> None:
        """A topic without comments goes, so that there is room for one."""
        operation = self.judge.document.named("deleteTopic")
        path = target(operation, dict(self.scene.ids, topic_guid=guid(ANOTHER_TOPIC)))
        reply = self.scene.client.ask(Request("DELETE", path))
        self.result.faults += self.judge.judge(operation, reply, "DELETE")

    def too_many_elements(self) -> None:
        """A model of an element too much."""
        path = f"/coord/1/projects/{project(2)}/models/large"
        request = Request("PUT", path, many_elements(MOST_ELEMENTS + 1))
        self.refused_request(self.judge.document.named("putModel"), request, "K7")

    def estimate(self) -> float:
        """How many seconds it would take to fill all, by some topics."""
        began = time.monotonic()
        self.fill("createTopic", "TopicBody", TRIED)
        total = MOST_TOPICS + MOST_COMMENTS + MOST_VIEWPOINTS
        return (time.monotonic() - began) * total / TRIED


def check_lists(judge: Judge, program: str) -> ListsResult:
    """Fills the lists, unless the program is too slow for it."""
    with Server(program) as server:
        lists = Lists(judge, server)
        seconds = lists.estimate()
        if seconds > MOST_SECONDS:
            lists.result.reason = f"full lists would take this program some {seconds:.0f} s"
            return lists.result
        lists.too_many_elements()
        lists.fill("createTopic", "TopicBody", MOST_TOPICS - 1 - TRIED)
        lists.refused("createTopic", "TopicBody", "B5")
        lists.refused("createTopicOfClash", None, "B5")
        lists.fill("createComment", "CommentBody", MOST_COMMENTS - 1)
        lists.refused("createComment", "CommentBody", "B6")
        lists.fill("createViewpoint", "ViewpointBody", MOST_VIEWPOINTS - 1)
        lists.refused("createViewpoint", "ViewpointBody", "B9")
        lists.delete_another_topic()
        lists.refused("createTopicOfClash", None, "B9")
        return lists.result
