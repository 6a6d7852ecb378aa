"""Faults of bytes: for each, how a request becomes one, and what must be answered."""

from __future__ import annotations

from dataclasses import dataclass

from .judge import Judge
from .scene import project
from .wire import Client, CutOff, Request

MOST_FIELDS = 64
MOST_BODY, MOST_UPLOAD = 4_194_304, 33_554_432


def _fields(request: Request, *lines: str, version: str = "HTTP/1.1", host: bool = True) -> bytes:
    front = [f"{request.method} {request.target} {version}"] + ["Host: h"] * host
    return "".join(it + "\r\n" for it in [*front, *lines, ""]).encode()


def _too_long(request: Request) -> int:
    upload = request.method == "PUT" and request.target.startswith("/coord/1/")
    return (MOST_UPLOAD if upload else MOST_BODY) + 1


def faulty(request: Request) -> dict[str, tuple[int, str, bytes]]:
    """Each fault with the status and the code of the answer, and the bytes."""
    many = [f"A{n}: b" for n in range(MOST_FIELDS)]
    long = f"A: {'a' * 17_000}"
    chunked = "Transfer-Encoding: chunked"
    return {
        "another version": (505, "H6", _fields(request, version="HTTP/2.0")),
        "no host": (400, "H1", _fields(request, host=False)),
        "two hosts": (400, "H1", _fields(request, "Host: i")),
        "a line that is no field": (400, "H1", _fields(request, "no field")),
        "a head of 17,000 bytes": (431, "H2", _fields(request, long)),
        "65 fields": (431, "H2", _fields(request, *many)),
        "two lengths": (400, "H3", _fields(request, *["Content-Length: 2"] * 2)),
        "a length with a sign": (400, "H3", _fields(request, "Content-Length: +2")),
        "a length beside chunks": (400, "H3", _fields(request, "Content-Length: 2", chunked)),
        "another coding": (400, "H3", _fields(request, "Transfer-Encoding: gzip")),
        "a long body": (413, "H4", _fields(request, f"Content-Length: {_too_long(request)}")),
        "a long chunk": (413, "H4", _fields(request, chunked) + b"3000000\r\n"),
        "a bad chunk": (400, "H5", _fields(request, chunked) + b"xyz\r\n"),
        "a bad trailer": (400, "H5", _fields(request, chunked) + b"0\r\nno trailer\r\n\r\n"),
        "trailers of 17,000 bytes": (
            431,
            "H2",
            _fields(request, chunked) + b"0\r\n" + long.encode() + b"\r\n\r\n",
        ),
    }


@dataclass(frozen=True)
class Bytes:
    """Bytes that are sent over a connection of their own, and what must come of them."""

    name: str
    method: str
    path: str
    data: bytes
    status: int
    code: str = ""
    closes: bool = False
    has: bytes = b""


BCF, COORD = "/bcf/3.0/projects", "/coord/1/projects"
TOPICS = f"{BCF}/{project(1)}/topics"
BODY = b'{"title":"t"}'


def _line(method: str, path: str, *lines: str, version: str = "HTTP/1.1") -> bytes:
    return _fields(Request(method, path), *lines, version=version)


def _topic(*lines: str, body: bytes = BODY) -> bytes:
    return _line("POST", TOPICS, *lines, f"Content-Length: {len(body)}") + body


def _odd_requests() -> list[Bytes]:
    """Requests of an odd form that are answered as any, and such as are none of the operations."""
    chunks = b"6;x=y\r\n" + BODY[:6] + b"\r\n7\r\n" + BODY[6:] + b"\r\n0\r\nA: b\r\n\r\n"
    chunked = _line("POST", TOPICS, "Transfer-Encoding: chunked") + chunks
    upgrade = ["Connection: Upgrade", "Upgrade: h2c", "HTTP2-Settings: AA"]
    users = ["X-User: a", "X-User: b"]
    anonymous = b'"creation_author":"anonymous"'
    return [
        Bytes("HTTP/1.0", "GET", BCF, _line("GET", BCF, version="HTTP/1.0"), 200, closes=True),
        Bytes("close", "GET", BCF, _line("GET", BCF, "Connection: close"), 200, closes=True),
        Bytes("empty lines before", "GET", BCF, b"\r\n\n\r\n" + _line("GET", BCF), 200),
        Bytes("line feeds", "GET", BCF, b"GET /bcf/3.0/projects HTTP/1.1\nHost: h\n\n", 200),
        Bytes("64 fields", "GET", BCF, _line("GET", BCF, *["A: b"] * 63), 200),
        Bytes("a whole target", "GET", BCF, _line("GET", f"http://x{BCF}"), 200),
        Bytes("an upgrade", "GET", BCF, _line("GET", BCF, *upgrade), 200),
        Bytes("chunks", "POST", TOPICS, chunked, 201, has=anonymous),
        Bytes("X-User", "POST", TOPICS, _topic("X-User: eva"), 201, has=b'"eva"'),
        Bytes("X-User twice", "POST", TOPICS, _topic(*users), 201, has=anonymous),
        Bytes("a long X-User", "POST", TOPICS, _topic("X-User: " + "u" * 129), 201, has=anonymous),
        Bytes("a member twice", "POST", TOPICS, _topic(body=b'{"title":1,"title":"t"}'), 201),
        Bytes("identity", "GET", BCF, _line("GET", BCF, "Content-Encoding: identity"), 200),
        Bytes("an array", "POST", TOPICS, _topic(body=b"[]"), 400, "H9"),
        Bytes("no body", "POST", TOPICS, _line("POST", TOPICS), 400, "H9"),
    ]


def _other_requests() -> list[Bytes]:
    """Requests for no path, or by a method that the path hasn't."""
    model = f"{COORD}/{project(1)}/models/m"
    return [
        Bytes("no route", "GET", "/x", _line("GET", "/x"), 404, "H7"),
        Bytes("https", "GET", "https:", _line("GET", f"https://x{BCF}"), 404, "H7"),
        Bytes("OPTIONS *", "OPTIONS", "*", _line("OPTIONS", "*"), 404, "H7"),
        Bytes("a slash more", "GET", f"{BCF}/", _line("GET", f"{BCF}/"), 404, "H7"),
        Bytes("PATCH", "PATCH", BCF, _line("PATCH", BCF), 405, "H8"),
        Bytes("OPTIONS", "OPTIONS", TOPICS, _line("OPTIONS", TOPICS), 405, "H8"),
        Bytes("GET of a model", "GET", model, _line("GET", model), 405, "H8"),
        Bytes("HEAD", "HEAD", BCF, _line("HEAD", BCF), 405),
        Bytes("rubbish", "GET", "", b"\x00\x01\r\n\r\n", 400, "H1", closes=True),
        Bytes(
            "TLS", "GET", "", b"\x16\x03\x01\x00\xc8\x01\x00\x00\xc4\r\n", 400, "H1", closes=True
        ),
    ]


def _tried(judge: Judge, port: int, it: Bytes) -> list[str]:
    document = judge.document
    operation = next((op for op in document.operations if op.fits(it.method, it.path)), None)
    client = Client(port)
    try:
        reply = client.send(it.data, it.method)
        closed = client.is_closed_by_server(5.0 if it.closes else 0.2)
    except CutOff as why:
        return [f"{it.name}: {why}"]
    finally:
        client.close()
    if reply.status == 400 and operation is None and it.code == "H1":
        operation = document.operations[
            0
        ]  # bytes that are no request are answered alike everywhere
    faults = judge.judge(operation, reply, it.method)
    if reply.status != it.status or f'"code":"{it.code}"'.encode() not in reply.body and it.code:
        faults.append(f"{reply.status} {reply.body[:80]!r}, wanted {it.status} {it.code}")
    if closed != it.closes:
        faults.append(f"the connection is {'closed' if closed else 'kept'}")
    if it.has not in reply.body:
        faults.append(f"{reply.body[:120]!r} hasn't {it.has!r}")
    return [f"{it.name}: {fault}" for fault in faults]


def _continued(port: int) -> list[str]:
    """`Expect: 100-continue` is answered before the body is sent."""
    import socket

    from .server import HOST

    head = _line("POST", TOPICS, "Expect: 100-continue", f"Content-Length: {len(BODY)}")
    with socket.create_connection((HOST, port), timeout=20) as link:
        link.sendall(head)
        wanted = b"HTTP/1.1 100 Continue\r\n\r\n"
        came = b""
        while len(came) < len(wanted) and (piece := link.recv(len(wanted) - len(came))):
            came += piece
        if came != wanted:
            return [f"Expect: {came!r} before the body"]
        link.sendall(BODY)
        came = link.recv(4096)
    return [] if came.startswith(b"HTTP/1.1 201 ") else [f"Expect: {came[:80]!r} behind the body"]


def check_bytes(judge: Judge, port: int) -> tuple[int, list[str]]:
    """How many were tried, and what went wrong."""
    tried = _odd_requests() + _other_requests()
    for name, (status, code, data) in faulty(Request("POST", TOPICS)).items():
        tried.append(Bytes(name, "POST", TOPICS, data, status, code, closes=True))
    faults = [fault for it in tried for fault in _tried(judge, port, it)]
    return len(tried) + 1, faults + _continued(port)
