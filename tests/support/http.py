"""Requests and replies as bytes, and the paths of a project."""

import json
import re
from dataclasses import dataclass
from typing import Any, NamedTuple

TURN = re.compile(rb"X-Book-Turn: (\d+)\r\n")
DATE = re.compile(rb'"((?:creation_|modified_)?date)":"[^"]*"')
RULES = [b'{"rules":[{"a":"*","b":"*","distance":%d}]}' % d for d in (0, 50, 500)]
MOMENT = 1714564800  # of replays, in seconds since 1970
NO_MEMORY = (
    b"HTTP/1.1 503 Service Unavailable\r\nContent-Type: application/json\r\n"
    b"Content-Length: 35\r\n\r\n"
    b'{"code":"M1","message":"M1 Memory"}'
)


class Response(NamedTuple):
    """The first reply in some bytes, and what is after it."""

    status: int
    turn: int | None
    head: bytes
    body: bytes
    rest: bytes


@dataclass(eq=False)
class Exchange:
    """A request and its reply."""

    method: str
    target: str
    body: bytes | None = None
    user: str | None = None
    sent: float = 0.0
    came: float = 0.0
    status: int = 0
    reply: bytes = b""
    turn: int | None = None
    close: bool = False
    shelved: bool = False
    given: int | None = None

    def bytes_of(self, last: bool = False) -> bytes:
        head = f"{self.method} {self.target} HTTP/1.1\r\nHost: h\r\n"
        head += f"X-User: {self.user}\r\n" if self.user else ""
        head += f"X-Book-Turn: {self.given}\r\n" if self.given is not None else ""
        head += "Connection: close\r\n" if last else ""
        body = self.body or b""
        head += f"Content-Length: {len(body)}\r\n" if self.body is not None else ""
        return head.encode() + b"\r\n" + body


def project_id(number: int) -> str:
    return f"{number:08x}-0000-8000-8000-000000000000"


def topics_of(number: int = 1) -> str:
    """Where the topics of a project are."""
    return f"/bcf/3.0/projects/{project_id(number)}/topics"


def coord_of(number: int = 1) -> str:
    """Where the models, rules and versions of a project are."""
    return f"/coord/1/projects/{project_id(number)}"


def request(method: str, target: str, body: bytes | None = None) -> bytes:
    return Exchange(method, target, body).bytes_of()


def rules(distance: int) -> bytes:
    """The body of one rule for all pairs of elements."""
    return b'{"rules":[{"a":"*","b":"*","distance":%d}]}' % distance


def take_response(data: bytes) -> Response | None:
    """The first reply in the bytes, or None where it isn't whole."""
    at = data.find(b"\r\n\r\n")
    if at < 0:
        return None
    head = data[: at + 4]
    status = int(head[9:12])
    if status == 100:
        return Response(status, None, head, b"", data[at + 4 :])
    found = re.search(rb"Content-Length: (\d+)\r\n", head)
    if found is None:
        raise ValueError(f"a reply without its length: {head[:200]!r}")
    end = at + 4 + int(found[1])
    if len(data) < end:
        return None
    turn = TURN.search(head)
    return Response(status, int(turn[1]) if turn else None, head, data[at + 4 : end], data[end:])


def replies_in(data: bytes) -> tuple[list[bytes], bytes]:
    """The bytes of each reply, and what is left after the last whole one."""
    replies = []
    while data:
        got = take_response(data)
        if got is None:
            break
        replies.append(data[: len(data) - len(got.rest)])
        data = got.rest
    return replies, data


def body_in(reply: bytes) -> bytes:
    """The body of one reply."""
    return reply.partition(b"\r\n\r\n")[2]


def without_dates(body: bytes) -> bytes:
    return DATE.sub(b'"\\1":""', body)


def without_turn(reply: bytes) -> bytes:
    return TURN.sub(b"", reply)


def without_left(body: bytes) -> bytes:
    """A body without the number of buckets that are left to be checked."""
    return re.sub(rb'"left":\d+', b'"left":', body)


def left_of(body: bytes) -> int | None:
    """How many buckets are left to be checked, where the body is an object that says it."""
    try:
        tree: Any = json.loads(body)
    except ValueError:
        return None
    return tree.get("left") if isinstance(tree, dict) else None
