"""A connection: the bytes that are written for those that are read, and the exit status."""

import json
import re

from tests.oracle.answers import answer
from tests.oracle.book import Book
from tests.oracle.faults import Fault, Unfinished, error
from tests.oracle.framing import read_body, read_request

MOST_REQUESTS = 10000


PHRASES = {
    200: "OK",
    201: "Created",
    202: "Accepted",
    409: "Conflict",
    410: "Gone",
    400: "Bad Request",
    404: "Not Found",
    405: "Method Not Allowed",
    413: "Payload Too Large",
    415: "Unsupported Media Type",
    422: "Unprocessable Entity",
    431: "Request Header Fields Too Large",
    505: "HTTP Version Not Supported",
    507: "Insufficient Storage",
}


FRAME = {
    "BadHead": ("H1", 400),
    "HeadTooLong": ("H2", 431),
    "BadLength": ("H3", 400),
    "BodyTooLong": ("H4", 413),
    "BadChunk": ("H5", 400),
    "Version": ("H6", 505),
}


def response(
    status: int, tree: object, turn: int | None, close: bool, head: bool, methods: list[str]
) -> bytes:
    body = json.dumps(tree, ensure_ascii=False, separators=(",", ":"), sort_keys=True).encode()
    lines = [f"HTTP/1.1 {status} {PHRASES[status]}", "Content-Type: application/json"]
    if status == 405:
        lines.append("Allow: " + ", ".join(methods))
    if turn is not None:
        lines.append(f"X-Book-Turn: {turn}")
    if close:
        lines.append("Connection: close")
    lines.append(f"Content-Length: {len(body)}")
    return "".join(line + "\r\n" for line in lines).encode() + b"\r\n" + (b"" if head else body)


def replay(data: bytes, projects: int, moment: int, buckets: int = -1) -> tuple[bytes, int]:
    """The bytes that are written, and the exit status. Behind each answer up to so many buckets are
    checked, or all."""
    book, out, at, served = Book(projects, moment), b"", 0, 0
    while True:
        try:
            request = read_request(data, at)
            if request.continues:
                out += b"HTTP/1.1 100 Continue\r\n\r\n"
            at = read_body(data, request)
        except Fault as fault:
            code, status = FRAME[fault.name]
            return out + response(status, error(code, fault.name), None, True, False, []), 7
        except Unfinished:
            return out, 0 if re.match(rb"(\r?\n)*$", data[at:]) else 7
        served += 1
        close = request.close or served == MOST_REQUESTS
        status, tree, turn, methods = answer(book, request)
        out += response(status, tree, turn, close, request.method == b"HEAD", methods)
        book.work(buckets)
        if served == MOST_REQUESTS:
            return out, 7
        if close:
            return out, 0
