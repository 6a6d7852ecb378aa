"""507: a book whose journal is full, so that each request that would change something is refused."""

from __future__ import annotations

import json
import time
from dataclasses import dataclass, field

from .directed import Directed
from .files import twins
from .judge import Judge
from .scene import NotReady, Scene, project, target
from .server import Server
from .wire import Client, Reply, Request

MOST_ENTRIES = 4_000_000
SIDE = 100
TRIAL_SIDE = 30
MOST_SECONDS = 120
FEW_ENTRIES = 100
LAST_ENTRIES = 200
COORD = f"/coord/1/projects/{project(2)}"


def largest(most: int) -> tuple[int, int, int]:
    """Sides of a block of at most so many cells, as many as can be had."""
    side = range(1, SIDE + 1)
    sides = ((a, b, most // (a * b)) for a in side for b in side if most // (a * b) in side)
    return max(sides, key=lambda it: it[0] * it[1] * it[2])


class Filling:
    """Fills the journal by versions of very many buckets, and then by topics."""

    def __init__(self, judge: Judge, scene: Scene) -> None:
        self.judge = judge
        self.scene = scene
        self.used = 50  # more than the scene has made
        self.faults: list[str] = []

    def _ask(self, name: str, request: Request) -> Reply:
        reply = self.scene.client.ask(request)
        self.faults += self.judge.judge(self.judge.document.named(name), reply, request.method)
        return reply

    def _version(self, name: str, request: Request) -> None:
        reply = self._ask(name, request)
        if reply.status not in (200, 201):
            raise NotReady(f"{request.target} gave {reply.status} {reply.body[:100]!r}")
        self.used += 1 + int(json.loads(reply.body)["left"])

    def _model(self, sides: tuple[int, int, int]) -> None:
        body = twins(*sides)
        self._version("putModel", Request("PUT", f"{COORD}/models/m", body))

    def too_spread(self) -> None:
        """A model of too many cells, which is refused whatever the journal has."""
        spread = Request("PUT", f"{COORD}/models/m", twins(SIDE + 1, SIDE, SIDE))
        reply = self._ask("putModel", spread)
        if reply.status != 507 or b'"K8"' not in reply.body:
            self.faults.append(f"too many cells gave {reply.status} {reply.body[:100]!r}")

    def estimate(self) -> float:
        """How many seconds the program would take to fill the journal, by a small version."""
        began = time.monotonic()
        self._model((TRIAL_SIDE, TRIAL_SIDE, TRIAL_SIDE))
        return (time.monotonic() - began) * MOST_ENTRIES / TRIAL_SIDE**3

    def fill(self) -> None:
        """Until the next topic is refused."""
        self._model((SIDE, SIDE, SIDE))
        distance = 0
        while self.used + SIDE**3 < MOST_ENTRIES:
            distance += 1
            rules = {"rules": [{"a": "*", "b": "*", "distance": distance}]}
            body = json.dumps(rules).encode()
            self._version("putRules", Request("PUT", f"{COORD}/rules", body))
        while MOST_ENTRIES - self.used > FEW_ENTRIES:
            self._model(largest(MOST_ENTRIES - self.used - 1))
        topic = Request("POST", f"/bcf/3.0/projects/{project(2)}/topics", b'{"title":"x"}')
        for _ in range(LAST_ENTRIES):
            if self._ask("createTopic", topic).status == 507:
                return
        raise NotReady(f"the journal isn't full after {LAST_ENTRIES} topics")


@dataclass
class FullResult:
    """How many requests were asked of a full book, what went wrong, and why it wasn't filled."""

    count: int = 0
    faults: list[str] = field(default_factory=list)
    reason: str = ""


def check_full(judge: Judge, program: str) -> FullResult:
    """Fills a book and asks each operation, unless the program is too slow for it."""
    with Server(program) as server:
        scene = Scene(Client(server.port))
        scene.make_clash()
        scene.make_topic()
        filling = Filling(judge, scene)
        filling.too_spread()
        seconds = filling.estimate()
        if seconds > MOST_SECONDS:
            reason = f"{MOST_ENTRIES} buckets would take this program some {seconds:.0f} s"
            return FullResult(0, filling.faults, reason)
        filling.fill()
        count = _ask_all(judge, scene, filling.faults)
        return FullResult(count, filling.faults)


def _ask_all(judge: Judge, scene: Scene, faults: list[str]) -> int:
    """Each operation that may be answered 507."""
    count = 0
    for operation in judge.document.operations:
        if 507 not in operation.responses:
            continue
        count += 1
        ids = {**scene.ids, "model_name": "m"}
        body = Directed(judge.document, scene).body(operation)
        request = Request(operation.method, target(operation, ids), body)
        reply = scene.client.ask(request)
        faults += judge.judge(operation, reply, operation.method)
        if reply.status != 507 or b'"code":"K9"' not in reply.body:
            faults.append(f"{operation.name}: wanted 507 K9, came {reply.status} {reply.body!r}")
    return count
