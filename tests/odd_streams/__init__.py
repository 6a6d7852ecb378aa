"""Streams of requests as nobody sends them who means well: odd bytes, lengths that disagree,
chunks, trailers, targets, dates, numbers and texts at the edge of what is taken. What is to be
answered is worked out by the reference."""

from random import Random

from tests import oracle
from tests.odd_streams.bodies import body_of, chunks
from tests.odd_streams.heads import (
    COORD,
    NOWHERE,
    PROJECTS,
    coding_fields,
    field,
    first_line,
    length_fields,
    target,
)
from tests.odd_streams.pieces import line_end
from tests.support.http import MOMENT

WAYS = ["line", "fields", "ends", "length", "coding", "chunks", "target", "body", "body", "many"]
TOPICS = f"{PROJECTS}/{NOWHERE}/topics"
PLAIN = [
    TOPICS,
    TOPICS,
    f"{TOPICS}/{NOWHERE}/comments",
    f"{TOPICS}/{NOWHERE}/viewpoints",
    f"{COORD}/{NOWHERE}/rules",
    PROJECTS,
]


def method_and_target(chance: Random, odd: set[str]) -> tuple[bytes, bytes]:
    """What a request asks for. A body that is odd goes with a method that has one."""
    usual, others = [b"GET", b"POST", b"POST", b"PUT", b"DELETE"], [
        b"HEAD",
        b"OPTIONS",
        b"PATCH",
        b"TRACE",
        b"CONNECT",
    ]
    method = chance.choice(usual if "body" in odd or chance.random() < 0.8 else others)
    where = target(chance) if "target" in odd else chance.choice(PLAIN)
    if "body" in odd and method in (b"GET", b"DELETE") and chance.random() < 0.7:
        method = b"PUT" if where.endswith("rules") else b"POST"
    return method, where.encode("utf-8" if chance.random() < 0.5 else "latin-1", "replace")


def fields_of(chance: Random, odd: set[str], size: int) -> list[bytes]:
    """The fields of a request whose body has so many bytes."""
    hosts = (
        [b"host:", b"HOST:\t h:80", b"Host: \xff", b"Host: a b"]
        if "fields" in odd
        else [b"Host: h"]
    )
    fields = [chance.choice(hosts)]
    if "fields" in odd:
        fields = fields * chance.choice([1] * 8 + [0, 2]) + [
            field(chance) for _ in range(chance.randint(1, 3))
        ]
    if "many" in odd:
        short, long = [b"a: b"] * chance.choice([61, 62, 63, 64]), b"X: " + b"x" * chance.choice(
            [16200, 16384, 20000]
        )
        fields += short if chance.random() < 0.5 else [long]
    if "length" in odd:
        fields += length_fields(chance, size)
    elif "coding" in odd:
        fields += coding_fields(chance, size)
    elif "chunks" in odd:
        fields.append(b"Transfer-Encoding: chunked")
    elif size or chance.random() < 0.5:
        fields.append(b"Content-Length: %d" % size)
    if chance.random() < 0.2:
        fields.append(b"Expect: 100-continue")
    chance.shuffle(fields)
    return fields


def request(chance: Random) -> bytes:
    """A request that is odd in one or two ways."""
    odd = {chance.choice(WAYS) for _ in range(chance.randint(1, 2))}
    method, where = method_and_target(chance, odd)
    plain = chance.choice([b"", b'{"title":"a","comment":"a","rules":[]}'])
    body = body_of(chance) if "body" in odd else plain
    lines = fields_of(chance, odd, len(body)) + [b""]
    ends = [line_end(chance) if "ends" in odd else b"\r\n" for _ in lines]
    head = first_line(chance, "line" in odd, method, where) + b"".join(
        map(bytes.__add__, lines, ends)
    )
    return head + (chunks(chance, body) if odd & {"coding", "chunks"} else body)


def stream(chance: Random) -> bytes:
    """Some requests one after another, now and then cut."""
    data = b"".join(request(chance) for _ in range(chance.randint(1, 4)))
    return data if chance.random() < 0.8 else data[: chance.randrange(len(data) + 1)]


def wanted(data: bytes) -> tuple[bytes, int] | None:
    """What the reference answers and the status, or None where it doesn't know."""
    try:
        return oracle.replay(data, 1, MOMENT)
    except oracle.Beyond:
        return None
