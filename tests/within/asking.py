"""A server, and a client that expects each of its requests to be taken."""

import json
import time
from types import TracebackType
from typing import Any, Self

from tests.support.checks import expect
from tests.support.client import Client
from tests.support.http import coord_of, rules
from tests.support.server import Server

PATIENCE = 100
COORD = coord_of()
MODEL = f"{COORD}/models/m"


class Asking:
    """A server of its own with two workers, and a client of it."""

    def __init__(self, program: str) -> None:
        self.server = Server(program, lanes=2, workers=2)
        self.client = Client(self.server, PATIENCE)

    def __enter__(self) -> Self:
        return self

    def __exit__(
        self,
        kind: type[BaseException] | None,
        fault: BaseException | None,
        trace: TracebackType | None,
    ) -> None:
        self.client.close()
        if kind is None:
            self.server.stop()
        self.server.__exit__(kind, fault, trace)

    def ask(self, method: str, target: str, body: bytes | None, status: int) -> Any:
        """The reply, as what its JSON says, to a request that has to be answered by this status."""
        it = self.client.ask(method, target, body)
        expect(it.status == status, f"{method} {target}: {it.status} {it.reply[:200]!r}")
        return json.loads(it.reply)

    def upload(self, file: bytes, elements: int, grid: str = "exact") -> Any:
        """Puts the file as a model, of which so many elements are made."""
        made = self.ask("PUT", f"{MODEL}?grid={grid}", file, 201)
        expect(made["elements"] == elements, f"{made['elements']} elements, wanted {elements}")
        return made

    def set_rules(self, distance: int = 0) -> None:
        self.ask("PUT", f"{COORD}/rules", rules(distance), 200)

    def clashes(self, version: int, page: str = "") -> Any:
        """A page of the clashes of a version, once all its buckets are checked."""
        end = time.monotonic() + PATIENCE
        while True:
            it = self.client.ask("GET", f"{COORD}/versions/{version}/clashes{page}")
            if it.status != 202:
                break
            expect(time.monotonic() < end, "the clashes don't come")
            time.sleep(0.02)
        expect(it.status == 200, f"{it.status} {it.reply[:200]!r}")
        return json.loads(it.reply)

    def listed(self, version: int, elements: int) -> None:
        """A version lists so many elements, and prints each of them."""
        found = self.ask("GET", f"{COORD}/versions/{version}", None, 200)
        count = sum(len(model["elements"]) for model in found["models"])
        expect(count == elements, f"{count} elements are listed, wanted {elements}")
