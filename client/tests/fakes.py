"""Servers that misbehave as a test says, and count what they were asked."""

from __future__ import annotations

import socket
import ssl
import threading
from collections.abc import Callable

PROJECTS = b'[{"name":"Project 1","project_id":"00000001-0000-8000-8000-000000000000"}]'


def reply(status: int, body: bytes = b"{}", more: str = "") -> bytes:
    """A whole response."""
    head = f"HTTP/1.1 {status} X\r\nContent-Length: {len(body)}\r\n{more}Connection: close\r\n\r\n"
    return head.encode() + body


def read_request(link: socket.socket) -> bytes:
    """A request with its body; empty where the client says nothing."""
    data = b""
    while b"\r\n\r\n" not in data:
        piece = link.recv(65536)
        if not piece:
            return data
        data += piece
    head, body = data.split(b"\r\n\r\n", 1)
    length = 0
    for line in head.split(b"\r\n")[1:]:
        name, value = line.split(b":", 1)
        length = int(value) if name.lower() == b"content-length" else length
    while len(body) < length:
        piece = link.recv(65536)
        if not piece:
            break
        body += piece
    return head + b"\r\n\r\n" + body


class Fake:
    """Answers each connection's one request by a function of the request and its number."""

    def __init__(
        self,
        answer: Callable[[bytes, int], bytes],
        context: ssl.SSLContext | None = None,
    ) -> None:
        self.answer, self.context = answer, context
        self.requests: list[bytes] = []
        self.listener = socket.create_server(("127.0.0.1", 0))
        self.listener.settimeout(0.1)
        self.open = True
        self.thread = threading.Thread(target=self.serve, daemon=True)

    @property
    def url(self) -> str:
        """Its address."""
        kind = "https" if self.context else "http"
        return f"{kind}://localhost:{self.listener.getsockname()[1]}"

    def lines(self) -> list[str]:
        """The first lines of the requests, without the version."""
        return [one.split(b" HTTP/", 1)[0].decode() for one in self.requests]

    def serve(self) -> None:
        """One connection after the other."""
        while self.open:
            try:
                link, _ = self.listener.accept()
            except TimeoutError:
                continue
            link.settimeout(10)
            try:
                if self.context:
                    link = self.context.wrap_socket(link, server_side=True)
                request = read_request(link)
                if request:
                    self.requests.append(request)
                    link.sendall(self.answer(request, len(self.requests)))
            except OSError:
                pass
            finally:
                link.close()

    def __enter__(self) -> Fake:
        self.thread.start()
        return self

    def __exit__(self, *_: object) -> None:
        self.open = False
        self.thread.join(10)
        self.listener.close()


class Relay(Fake):
    """Passes requests on to a server, but for those that a function takes for itself."""

    def __init__(
        self, port: int, special: Callable[[bytes, int], bytes | None], late: bool = False
    ) -> None:
        super().__init__(self.pass_on)
        self.port, self.special, self.late = port, special, late

    def pass_on(self, request: bytes, number: int) -> bytes:
        """The server's response, or what the function gives in its place.

        A late relay lets the server do what is asked before it keeps its response back.
        """
        instead = self.special(request, number)
        if instead is not None and not self.late:
            return instead
        head, body = request.split(b"\r\n\r\n", 1)
        with socket.create_connection(("127.0.0.1", self.port), 10) as link:
            link.settimeout(30)
            lines = [one for one in head.split(b"\r\n") if not one.lower().startswith(b"connec")]
            link.sendall(b"\r\n".join([*lines, b"Connection: close"]) + b"\r\n\r\n" + body)
            found = b""
            while piece := link.recv(65536):
                found += piece
        return found if instead is None else instead
