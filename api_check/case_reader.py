"""The requests and the responses of an end-to-end case."""

from __future__ import annotations

import http.client
import io
from collections.abc import Iterator
from dataclasses import dataclass
from functools import lru_cache
from pathlib import Path

from .places import CASES


@dataclass(frozen=True)
class CaseRequest:
    """A request as a case sends it."""

    method: str
    path: str
    body: bytes


@dataclass(frozen=True)
class CaseResponse:
    """The response that a case wants."""

    status: int
    headers: tuple[tuple[str, str], ...]
    body: bytes


class _Kept(io.BytesIO):
    """Bytes that stay open when a response has been read, since the next one follows."""

    def close(self) -> None:
        return

    def makefile(self, _mode: str) -> _Kept:
        """What http.client asks a socket for."""
        return self


def _requests(data: bytes) -> Iterator[CaseRequest]:
    """The requests up to the first whose bytes are faulty."""
    stream = _Kept(data)
    while line := stream.readline():
        if line.strip():
            words = line.decode("latin-1").split(" ")
            if len(words) != 3:
                return
            method, target, _ = words
            fields = http.client.parse_headers(stream)
            body = stream.read(int(fields.get("Content-Length", "0")))
            yield CaseRequest(method, target.partition("?")[0], body)


def read_responses(data: bytes) -> Iterator[CaseResponse]:
    """All responses, one after another."""
    stream = _Kept(data)
    while stream.tell() < len(data):
        response = http.client.HTTPResponse(stream)  # type: ignore[arg-type]
        response.begin()
        yield CaseResponse(response.status, tuple(response.headers.items()), response.read())


@lru_cache(maxsize=None)
def read_case(name: str, folder: Path = CASES) -> tuple[list[CaseRequest], list[CaseResponse]]:
    """All requests and responses of the case. Only cases of plain requests can be read."""
    requests = list(_requests((folder / name / "stdin").read_bytes()))
    return requests, list(read_responses((folder / name / "stdout").read_bytes()))
