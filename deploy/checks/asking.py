"""Requests to the front: by TLS, as a user, whole."""

from __future__ import annotations

import base64
import http.client
import json
import socket
import ssl
from dataclasses import dataclass
from typing import Any

from front import HOST, USERS, Front

PROJECT = "00000001-0000-8000-8000-000000000000"
BCF = f"/bcf/3.0/projects/{PROJECT}"
COORD = f"/coord/1/projects/{PROJECT}"


@dataclass
class Answer:
    """A response: its status, its fields and its body."""

    status: int
    fields: http.client.HTTPMessage
    body: bytes

    def json(self) -> Any:
        """The body as JSON."""
        return json.loads(self.body)

    def code(self) -> str:
        """The code of an error, or what the body is where it is none."""
        try:
            return str(self.json()["code"])
        except (ValueError, KeyError, TypeError):
            return repr(self.body[:80])

    def field(self, name: str) -> str:
        """A field, empty where there is none; several joined by commas."""
        return ", ".join(self.fields.get_all(name) or [])

    def said(self) -> str:
        """Status and code, for the line of a row that failed."""
        return f"{self.status} {self.code()}"


def basic(user: str, password: str | None = None) -> dict[str, str]:
    """The field by which a user signs in; without a password the right one."""
    word = USERS[user] if password is None else password
    return {"Authorization": "Basic " + base64.b64encode(f"{user}:{word}".encode()).decode()}


class Tls(http.client.HTTPSConnection):
    """A connection to the front under its own name, with a client certificate if one is named."""

    def __init__(self, front: Front, certificate: str = "", timeout: float = 60) -> None:
        folder = front.folder / "etc/tls"
        context = ssl.create_default_context(cafile=str(folder / "server.crt"))
        if certificate:
            pair = (str(folder / f"{certificate}.crt"), str(folder / f"{certificate}.key"))
            context.load_cert_chain(*pair)
        super().__init__(HOST, front.ports["tls"], timeout=timeout, context=context)
        self.context = context

    def connect(self) -> None:
        raw = socket.create_connection(("127.0.0.1", self.port), self.timeout)
        self.sock = self.context.wrap_socket(raw, server_hostname=HOST)


def ask_on(
    connection: http.client.HTTPConnection,
    method: str,
    target: str,
    body: Any = None,
    **fields: str,
) -> Answer:
    """A request over a connection. A body of bytes goes as it is, another as JSON."""
    data = body if body is None or isinstance(body, (bytes, list)) else json.dumps(body).encode()
    named = {name.replace("_", "-"): value for name, value in fields.items()}
    connection.request(method, target, data, named)
    response = connection.getresponse()
    return Answer(response.status, response.headers, response.read())


def ask(
    front: Front, method: str, target: str, body: Any = None, user: str = "eva", **fields: str
) -> Answer:
    """A request over a connection of its own, by a user; nobody where the user is empty."""
    connection = Tls(front, fields.pop("certificate", ""), float(fields.pop("timeout", "60")))
    try:
        known = basic(user) if user else {}
        return ask_on(connection, method, target, body, **{**known, **fields})
    finally:
        connection.close()


def must(fact: bool, text: str) -> None:
    """A row's expectation; what was seen instead is the text."""
    if not fact:
        raise AssertionError(text)


def is_answer(answer: Answer, status: int, code: str = "") -> None:
    """The answer has this status, and as JSON this code."""
    must(answer.status == status, f"{answer.said()} and not {status} {code}")
    if code:
        must(answer.code() == code, f"{answer.said()} and not {status} {code}")
        kind = answer.field("Content-Type")
        must(kind == "application/json", f"{answer.said()} is of the type {kind!r}")
