"""The server's HTTP interface as calls (docs/API.md)."""

from __future__ import annotations

import time
from collections.abc import Callable, Iterator
from pathlib import Path
from typing import Any, cast

from .errors import FileFault, Refused, Unfinished, UsageFault
from .records import (
    Changed,
    Clash,
    CommentRecord,
    ProjectRecord,
    TopicRecord,
    Version,
    ViewpointRecord,
)
from .transport import Transport

MOST_UPLOAD = 33_554_432
PAGE = 1000
Progress = Callable[[int, int], None]


def no_progress(done: int, total: int) -> None:
    """Tells nobody."""


class FileBody:
    """A file as the body of a request, which reports how much of it was read."""

    def __init__(self, path: Path, progress: Progress) -> None:
        self.file = path.open("rb")
        self.size = path.stat().st_size
        self.done, self.progress = 0, progress

    def __len__(self) -> int:
        return self.size

    def read(self, most: int = -1) -> bytes:
        """The next bytes; the pieces that the library asks for are small."""
        piece = self.file.read(max(most, 65536) if most >= 0 else -1)
        self.done += len(piece)
        self.progress(self.done, self.size)
        if not piece:
            self.file.close()
        return piece


def projects(transport: Transport) -> list[ProjectRecord]:
    """The server's projects by rising number."""
    return cast(list[ProjectRecord], transport.ask("GET", "/bcf/3.0/projects").body)


def chosen_project(transport: Transport, wanted: str | None) -> ProjectRecord:
    """The project of an identifier, a number from 1 or a name; the first where none is named."""
    known = projects(transport)
    names = ", ".join(f"{place + 1} {one['name']}" for place, one in enumerate(known))
    if wanted is None:
        return known[0]
    fits = [one for one in known if wanted.casefold() == one["project_id"].casefold()]
    fits = fits or [one for one in known if wanted == one["name"]]
    fits = fits or [one for one in known if wanted.casefold() == one["name"].casefold()]
    if not fits and wanted.isdecimal() and 1 <= int(wanted) <= len(known):
        fits = [known[int(wanted) - 1]]
    if len(fits) != 1:
        several = "several projects are" if fits else "no project is"
        raise UsageFault(f"{several} named {wanted!r}", f"the server has: {names}")
    return fits[0]


class Project:
    """One project of the server."""

    def __init__(self, transport: Transport, record: ProjectRecord) -> None:
        self.transport, self.name, self.identifier = (
            transport,
            record["name"],
            record["project_id"],
        )
        self.bcf = f"/bcf/3.0/projects/{self.identifier}"
        self.coord = f"/coord/1/projects/{self.identifier}"

    def get(self, path: str) -> Any:
        """The JSON at a path of the server."""
        return self.transport.ask("GET", path).body

    def put_model(
        self, name: str, path: Path, grid: str, progress: Progress = no_progress
    ) -> Changed:
        """Uploads a file as the model of that name, which makes the next version."""
        size = path.stat().st_size
        if size > MOST_UPLOAD:
            raise Refused(
                f"{path.name} has {size:,} bytes, and an upload at most {MOST_UPLOAD:,}",
                "split it, by storey or by discipline",
                "U19",
                what="bytes",
            )
        target = f"{self.coord}/models/{name}?grid={grid}"
        try:
            answer = self.transport.ask("PUT", target, body=lambda: FileBody(path, progress))
        except OSError as fault:
            raise FileFault(f"{path}: {fault.strerror or fault}") from fault
        return cast(Changed, answer.body)

    def delete_model(self, name: str) -> Changed:
        """Takes a model out, which makes the next version."""
        return cast(Changed, self.transport.ask("DELETE", f"{self.coord}/models/{name}").body)

    def put_rules(self, rules: list[dict[str, Any]]) -> Changed:
        """Sets the clash rules, which makes the next version."""
        answer = self.transport.ask("PUT", f"{self.coord}/rules", json={"rules": rules})
        return cast(Changed, answer.body)

    def version(self, number: int | None = None) -> Version:
        """A version with its models and rules, the newest where no number is given."""
        wanted = "newest" if number is None else number
        return cast(Version, self.get(f"{self.coord}/versions/{wanted}"))

    def versions(self, most: int) -> Iterator[Version]:
        """The versions that are kept, from the newest down, at most so many."""
        one = self.version()
        for _ in range(most):
            yield one
            if one["version"] == 0:
                return
            try:
                one = self.version(one["version"] - 1)
            except Refused as fault:
                if fault.code == "K4":
                    return
                raise

    def newest(self) -> int:
        """The number of the newest version."""
        page = self.get(f"{self.coord}/versions/newest/clashes?count=1")
        return int(page["version"])

    def clash_count(self, number: int) -> int | None:
        """How many clashes a version has, None while they are being looked for."""
        answer = self.transport.ask("GET", f"{self.coord}/versions/{number}/clashes?count=1")
        return None if answer.status == 202 else int(answer.body["total"])

    def clashes(self, number: int, wait: float, progress: Progress = no_progress) -> list[Clash]:
        """All clashes of a version; waits so many seconds while they are being looked for."""
        end, pause, most = time.monotonic() + wait, 0.02, 1
        found: list[Clash] = []
        while True:
            target = f"{self.coord}/versions/{number}/clashes?first={len(found)}&count={PAGE}"
            answer = self.transport.ask("GET", target)
            if answer.status == 202:
                left = int(answer.body["left"])
                most = max(most, left)
                progress(most - left, most)
                if time.monotonic() + pause > end:
                    raise Unfinished(
                        f"version {number}: {left} of its buckets are still to be checked",
                        "ask again later, or wait longer: --wait SECONDS",
                        version=number,
                        left=left,
                    )
                time.sleep(pause)
                pause = min(pause * 1.5, 1.0)
                continue
            found += answer.body["clashes"]
            if len(found) >= answer.body["total"] or not answer.body["clashes"]:
                return found

    def topic_of_clash(self, number: int, place: int) -> TopicRecord:
        """Makes a topic of the clash at a place of a version."""
        target = f"{self.coord}/versions/{number}/clashes/{place}/topic"
        return cast(TopicRecord, self.transport.ask("POST", target).body)

    def topics(self) -> list[TopicRecord]:
        """The topics by rising number."""
        return cast(list[TopicRecord], self.get(f"{self.bcf}/topics"))

    def comments(self, topic: str) -> list[CommentRecord]:
        """The comments on a topic."""
        return cast(list[CommentRecord], self.get(f"{self.bcf}/topics/{topic}/comments"))

    def viewpoints(self, topic: str) -> list[ViewpointRecord]:
        """The viewpoints of a topic, without their parts."""
        return cast(list[ViewpointRecord], self.get(f"{self.bcf}/topics/{topic}/viewpoints"))

    def viewpoint_part(self, topic: str, viewpoint: str, part: str) -> Any:
        """`selection`, `coloring` or `visibility` of a viewpoint."""
        return self.get(f"{self.bcf}/topics/{topic}/viewpoints/{viewpoint}/{part}")[part]

    def post(self, path: str, body: dict[str, Any], user: str | None = None) -> Any:
        """Makes a topic, a comment or a viewpoint at a path below the project's."""
        return self.transport.ask("POST", self.bcf + path, json=body, user=user).body

    def put(self, path: str, body: dict[str, Any], user: str | None = None) -> Any:
        """Replaces the body of a topic or a comment."""
        return self.transport.ask("PUT", self.bcf + path, json=body, user=user).body
