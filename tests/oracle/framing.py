"""A request in the bytes of a connection: its head, its fields and its body, by length or in
chunks."""

import re
from dataclasses import dataclass

from tests.oracle.faults import Beyond, Fault, Unfinished

TCHAR = rb"[!#$%&'*+\-.^_`|~0-9A-Za-z]+"
REQUEST_LINE = re.compile(rb"(" + TCHAR + rb") ([\x21-\x7e\x80-\xff]+) HTTP/1\.([01])$")
FIELD = re.compile(rb"(" + TCHAR + rb"):[ \t]*([\t\x20-\x7e\x80-\xff]*)$")
FIELD_SO_FAR = re.compile(rb"(" + TCHAR + rb"(:[\t\x20-\x7e\x80-\xff]*\r?)?)?$|\r$")
SIZE_LINE = re.compile(rb"([0-9A-Fa-f]{1,8})(;[^\r\n]{0,256})?\r\n")
SIZE_LINE_SO_FAR = re.compile(
    rb"([0-9A-Fa-f]{0,8}|[0-9A-Fa-f]{1,8};[^\r\n]{0,256}|[0-9A-Fa-f]{1,8}(;[^\r\n]{0,256})?\r)$"
)
MOST_HEAD, MOST_BODY, MOST_UPLOAD, MOST_FIELDS = 16384, 4194304, 33554432, 64
Fields = list[tuple[bytes, bytes]]


@dataclass
class Request:
    """A request by what decides its answer."""

    method: bytes
    target: bytes
    user: str
    close: bool
    encoded: bool
    seen: int | None  # the turn that it gives, if it gives one
    bad_turn: bool  # whether its field of the turn is a fault
    continues: bool  # whether 100 Continue comes before its answer
    after: int  # where its body begins
    most: int  # the longest body that it may have
    length: int | None
    chunked: bool
    body: bytes = b""


def whole_line(data: bytes, at: int) -> tuple[bytes, int] | None:
    """The line at a place, without its end, and the place after it; None where no LF follows."""
    end = data.find(b"\n", at)
    if end < 0:
        return None
    line = data[at:end]
    return (line[:-1] if line.endswith(b"\r") else line), end + 1


def read_fields(data: bytes, at: int, early: bool = False) -> tuple[Fields, int | None]:
    """The fields of a section and the place after it, None where it isn't whole. What can't become
    a field is a fault at once where that is asked for, else once its line is whole."""
    fields: Fields = []
    while True:
        got = whole_line(data, at)
        if got is None:
            if early and not FIELD_SO_FAR.match(data[at:]):
                raise Beyond("a line that is no field") if data[at : at + 1] in (
                    b" ",
                    b"\t",
                ) else Fault("BadLine")
            return fields, None
        line, at = got
        if not line:
            return fields, at
        match = FIELD.match(line)
        if not match:
            raise Beyond(f"a line that is no field: {line!r}") if line[:1] in b" \t" else Fault(
                "BadLine"
            )
        fields.append((match.group(1).lower(), match.group(2).rstrip(b" \t")))


def values(fields: Fields, name: bytes) -> list[bytes]:
    return [value for other, value in fields if other == name]


def size_of(data: bytes, at: int) -> tuple[int, int]:
    """The size of the chunk that begins at a place, and the place after its line."""
    line = SIZE_LINE.match(data[at : at + 300])
    if line:
        return int(line.group(1), 16), at + line.end()
    if SIZE_LINE_SO_FAR.match(data[at : at + 300]):
        raise Unfinished
    raise Fault("BadChunk")


def read_trailers(data: bytes, at: int) -> int:
    """The place after the trailers that begin at a place."""
    try:
        trailers, after = read_fields(data, at)
    except Fault:
        raise Fault("BadChunk") from None
    if after is None:
        if len(data) - at >= MOST_HEAD:
            raise Fault("HeadTooLong")
        raise Unfinished
    if len(trailers) > MOST_FIELDS or after - at > MOST_HEAD:
        raise Fault("HeadTooLong")
    return after


def read_chunks(data: bytes, at: int, most: int) -> tuple[bytes, int]:
    """A body in chunks, and the place after it."""
    body = b""
    while True:
        size, at = size_of(data, at)
        if size == 0:
            return body, read_trailers(data, at)
        if len(body) + size > most:
            raise Fault("BodyTooLong")
        body += data[at : at + size]
        if not b"\r\n".startswith(data[at + size : at + size + 2]):
            raise Fault("BadChunk")
        at += size + 2
        if at > len(data):
            raise Unfinished


def first_line(data: bytes, start: int) -> tuple["re.Match[bytes]", int]:
    """The first line of the request at a place, without the empty lines before it, and the place
    after it."""
    at = start
    while data[at : at + 1] == b"\n" or data[at : at + 2] == b"\r\n":
        at += 1 if data[at : at + 1] == b"\n" else 2
    first = whole_line(data, at)
    if first is None or first[1] - start > MOST_HEAD:
        if len(data) - start >= MOST_HEAD:
            raise Fault("HeadTooLong")
        raise Unfinished
    line, after = first
    if re.search(rb" HTTP/[0-9]\.[0-9]$", line) and not re.search(rb" HTTP/1\.[01]$", line):
        raise Fault("Version")
    match = REQUEST_LINE.match(line)
    if not match:
        raise Fault("BadHead")
    return match, after


def head_fields(
    data: bytes, start: int, after: int, target: bytes, minor: int
) -> tuple[Fields, int]:
    """The fields of the head whose first line has been read, and the place after it."""
    try:
        target.decode()
        fields, at = read_fields(data[: start + MOST_HEAD], after, True)
    except (UnicodeDecodeError, Fault):
        raise Fault("BadHead") from None
    if at is None:
        if len(data) - start >= MOST_HEAD:
            raise Fault("HeadTooLong")
        raise Unfinished
    if minor == 1 and len(values(fields, b"host")) != 1:
        raise Fault("BadHead")
    if len(fields) > MOST_FIELDS:
        raise Fault("HeadTooLong")
    return fields, at


def length_in(fields: Fields, minor: int, most: int) -> tuple[int | None, bool]:
    """The length of a body where it is given, and whether the body is in chunks."""
    lengths, codings = values(fields, b"content-length"), values(fields, b"transfer-encoding")
    bad_length = len(lengths) > 1 or any(not re.match(rb"[0-9]+$", n) for n in lengths)
    bad_coding = len(codings) > 1 or any(c.lower() != b"chunked" for c in codings)
    if bad_length or bad_coding or (codings and (lengths or minor == 0)):
        raise Fault("BadLength")
    if lengths and int(lengths[0]) > most:
        raise Fault("BodyTooLong")
    return int(lengths[0]) if lengths else None, bool(codings)


def user_in(fields: Fields) -> str:
    users = values(fields, b"x-user")
    if len(users) == 1 and 1 <= len(users[0]) <= 128:
        try:
            return users[0].decode()
        except UnicodeDecodeError:
            pass
    return "anonymous"


def turn_in(fields: Fields) -> tuple[int | None, bool]:
    """The turn that a head gives, if it gives one, and whether its field is bad."""
    turns = values(fields, b"x-book-turn")
    if not turns:
        return None, False
    if len(turns) > 1 or not re.fullmatch(rb"[0-9]{1,15}", turns[0]):
        return None, True
    return int(turns[0]), False


def read_request(data: bytes, start: int) -> Request:
    """The request at a place, without its body."""
    match, after = first_line(data, start)
    method, target, minor = match.group(1), match.group(2), int(match.group(3))
    fields, at = head_fields(data, start, after, target, minor)
    most = MOST_UPLOAD if method == b"PUT" and target.startswith(b"/coord/1/") else MOST_BODY
    length, chunked = length_in(fields, minor, most)
    options = [
        o.strip(b" \t").lower() for v in values(fields, b"connection") for o in v.split(b",")
    ]
    has_body = length is not None or chunked
    seen, bad_turn = turn_in(fields)
    expects = any(v.lower() == b"100-continue" for v in values(fields, b"expect"))
    return Request(
        method=method,
        target=target,
        user=user_in(fields),
        close=minor == 0 or b"close" in options,
        encoded=any(v.lower() != b"identity" for v in values(fields, b"content-encoding")),
        seen=seen,
        bad_turn=bad_turn,
        continues=minor == 1 and has_body and expects,
        after=at,
        most=most,
        length=length,
        chunked=chunked,
    )


def read_body(data: bytes, request: Request) -> int:
    """Reads the request's body, and returns the place after it."""
    at = request.after
    if request.chunked:
        request.body, at = read_chunks(data, at, request.most)
    elif request.length is not None:
        request.body = data[at : at + request.length]
        at += request.length
        if at > len(data):
            raise Unfinished
    return at
