"""A client of the server: a connection that is kept, and what was asked over it."""

import socket
import struct
import threading
import time
from collections.abc import Callable
from contextlib import suppress
from random import Random
from types import TracebackType
from typing import Self

from tests.support.checks import expect
from tests.support.http import Exchange, Response, coord_of, take_response, topics_of
from tests.support.server import Server


class Client:
    """A connection that is kept, and what was asked over it."""

    def __init__(self, server: Server, timeout: float = 60) -> None:
        self.socket = server.connect()
        self.socket.settimeout(timeout)
        self.rest = b""
        self.log: list[Exchange] = []

    def __enter__(self) -> Self:
        return self

    def __exit__(
        self,
        kind: type[BaseException] | None,
        fault: BaseException | None,
        trace: TracebackType | None,
    ) -> None:
        self.close()

    def read(self) -> Response:
        """The next reply."""
        while True:
            got = take_response(self.rest)
            if got:
                self.rest = got.rest
                return got
            more = self.socket.recv(1 << 16)
            expect(more, f"the connection ended within a reply: {self.rest[:80]!r}")
            self.rest += more

    def note(self, it: Exchange) -> Exchange:
        """Reads the reply to what was sent."""
        got = self.read()
        it.status, it.turn, it.reply = got.status, got.turn, got.body
        it.came = time.monotonic()
        it.close = b"Connection: close" in got.head
        self.log.append(it)
        return it

    def ask(
        self,
        method: str,
        target: str,
        body: bytes | None = None,
        user: str | None = None,
        pieces: int | None = None,
        last: bool = False,
        given: int | None = None,
    ) -> Exchange:
        """Sends a request, in pieces of so many bytes where that is given, and reads its reply."""
        it = Exchange(method, target, body, user, given=given)
        data = it.bytes_of(last)
        it.sent = time.monotonic()
        if pieces is None:
            self.socket.sendall(data)
        else:
            for at in range(0, len(data), pieces):
                self.socket.sendall(data[at : at + pieces])
        return self.note(it)

    def close(self) -> None:
        self.socket.close()


def in_threads(jobs: list[Callable[[], object]]) -> None:
    """Runs the jobs at once, and raises the first fault of one."""
    faults: list[BaseException] = []

    def run(job: Callable[[], object]) -> None:
        try:
            job()
        except BaseException as fault:
            faults.append(fault)

    threads = [threading.Thread(target=run, args=(job,)) for job in jobs]
    for it in threads:
        it.start()
    for it in threads:
        it.join()
    if faults:
        raise faults[0]


def wait_for_clashes(
    client: Client, version: int, patience: float = 60, pause: float = 0.002
) -> Exchange:
    """Asks for the clashes of a version until they are there."""
    end = time.monotonic() + patience
    while True:
        it = client.ask("GET", f"{coord_of()}/versions/{version}/clashes")
        if it.status != 202:
            return it
        expect(time.monotonic() < end, "the clashes do not come")
        time.sleep(pause)


def fill(client: Client, count: int) -> None:
    """Makes so many topics whose titles are a thousand bytes long."""
    for _ in range(count):
        client.ask("POST", topics_of(), b'{"title":"%s"}' % (b"x" * 1000))


def reset(it: socket.socket) -> None:
    """Closes a connection by a reset."""
    it.setsockopt(socket.SOL_SOCKET, socket.SO_LINGER, struct.pack("ii", 1, 0))
    it.close()


def end_input(it: socket.socket) -> None:
    """Says that no more will be sent, where the connection is there still."""
    with suppress(OSError):
        it.shutdown(socket.SHUT_WR)


def all_of(it: socket.socket) -> bytes:
    """What comes until the server closes."""
    got = b""
    with suppress(ConnectionResetError):
        while more := it.recv(1 << 16):
            got += more
    return got


def send(
    it: socket.socket, data: bytes, pieces: int | None = None, chance: Random | None = None
) -> None:
    """Sends, in pieces of chance lengths up to so many bytes where that is given, as far as the
    server takes it."""
    with suppress(OSError):
        while data:
            size = len(data) if pieces is None or chance is None else chance.randint(1, pieces)
            it.sendall(data[:size])
            data = data[size:]


def said_to(server: Server, data: bytes, pieces: list[int | None], chance: Random) -> bytes:
    """What a connection of its own is answered that sends these bytes, in pieces of one of these
    lengths, and then no more."""
    it = server.connect()
    send(it, data, chance.choice(pieces), chance)
    end_input(it)
    got = all_of(it)
    it.close()
    return got
