"""A small proxy that alters responses on their way from the server to the checks."""

from __future__ import annotations

import http.client
import socket
import threading
from collections.abc import Callable

from .server import HOST
from .wire import Reply

Alter = Callable[[Reply], Reply]


def _written(reply: Reply) -> bytes:
    """The bytes of a response. Its length is put right, so that only what was altered is wrong."""
    lines = [f"HTTP/1.1 {reply.status} {http.client.responses[reply.status]}"]
    for name, value in reply.headers:
        lines.append(f"{name}: {len(reply.body) if name == 'Content-Length' else value}")
    return "".join(it + "\r\n" for it in [*lines, ""]).encode() + reply.body


class AlteringProxy:
    """Listens at a port of its own, and sends on what comes, one connection at a time."""

    def __init__(self, port: int, alter: Alter) -> None:
        self._to = port
        self._alter = alter
        self._door = socket.create_server((HOST, 0))
        self.port = int(self._door.getsockname()[1])
        self._thread = threading.Thread(target=self._serve, daemon=True)

    def __enter__(self) -> AlteringProxy:
        self._thread.start()
        return self

    def __exit__(self, *_: object) -> None:
        self._door.shutdown(socket.SHUT_RDWR)
        self._door.close()
        self._thread.join(timeout=10)

    def _serve(self) -> None:
        while True:
            try:
                client, _ = self._door.accept()
            except OSError:
                return
            with client, socket.create_connection((HOST, self._to), timeout=60) as server:
                try:
                    self._connection(client, server)
                except (OSError, http.client.HTTPException):
                    pass  # the client or the server let the connection go

    def _connection(self, client: socket.socket, server: socket.socket) -> None:
        """Each read of the client is a whole request, since it waits for the answer."""
        while data := client.recv(1 << 20):
            server.sendall(data)
            response = http.client.HTTPResponse(server)
            response.begin()
            reply = Reply(response.status, tuple(response.headers.items()), response.read())
            client.sendall(_written(self._alter(reply)))
            if reply.field("Connection") == "close":
                return
