"""Requests and responses as bytes, over one connection after another."""

from __future__ import annotations

import http.client
import socket
from dataclasses import dataclass, field

from .server import HOST

SECONDS = 120


@dataclass(frozen=True)
class Request:
    """A request as it is sent."""

    method: str
    target: str
    body: bytes | None = None
    fields: tuple[tuple[str, str], ...] = ()
    version: str = "HTTP/1.1"

    def head(self) -> bytes:
        """The bytes of the head."""
        lines = [f"{self.method} {self.target} {self.version}", "Host: h"]
        lines += [f"{name}: {value}" for name, value in self.fields]
        if self.body is not None:
            lines.append(f"Content-Length: {len(self.body)}")
        return "".join(it + "\r\n" for it in [*lines, ""]).encode("utf-8")

    def bytes(self) -> bytes:
        """The whole request."""
        return self.head() + (self.body or b"")


@dataclass(frozen=True)
class Reply:
    """A response as it came."""

    status: int
    headers: tuple[tuple[str, str], ...]
    body: bytes

    def field(self, name: str) -> str | None:
        """The value of a field, or nothing."""
        return next((value for key, value in self.headers if key == name), None)


class CutOff(Exception):
    """The connection ended without a response."""


@dataclass
class Client:
    """Asks one request after another, over a connection that is kept while it may be."""

    port: int
    _link: socket.socket | None = field(default=None, repr=False)

    def close(self) -> None:
        """Lets the connection go."""
        if self._link is not None:
            self._link.close()
            self._link = None

    def send(self, data: bytes, method: str = "GET", last: bool = False) -> Reply:
        """Sends bytes and reads one response. A connection that the server closes is let go."""
        if self._link is None:
            self._link = socket.create_connection((HOST, self.port), timeout=SECONDS)
        try:
            try:
                self._link.sendall(data)
            except (BrokenPipeError, ConnectionResetError):
                pass  # it may have answered before it took all
            response = http.client.HTTPResponse(self._link, method=method)
            response.begin()
            reply = Reply(response.status, tuple(response.headers.items()), response.read())
        except (http.client.HTTPException, OSError) as why:
            self.close()
            raise CutOff(f"{why!r} instead of a response to {data[:200]!r}") from why
        if last or reply.field("Connection") == "close":
            self.close()
        return reply

    def ask(self, request: Request) -> Reply:
        """Asks a request."""
        return self.send(request.bytes(), request.method)

    def is_closed_by_server(self, seconds: float = 5.0) -> bool:
        """Whether the server closes the connection within so many seconds."""
        if self._link is None:
            return True
        self._link.settimeout(seconds)
        try:
            return self._link.recv(1) == b""
        except ConnectionResetError:
            return True
        except TimeoutError:
            return False
