"""The state of all projects: their boards, their versions, and the turn."""

from collections.abc import Sequence

from tests.oracle.board import Board
from tests.oracle.faults import Answer, Tree
from tests.oracle.model_file import Element
from tests.oracle.versions import Models, Version


class Book:
    """All that was said and uploaded so far over the connection."""

    def __init__(self, projects: int, moment: int) -> None:
        self.projects, self.moment, self.turn = projects, moment, 0
        self.printed = 0  # the turn that was printed last
        self.shelf: set[tuple[int, int]] = set()  # the versions whose clashes were answered
        self.boards = {n: Board(n, moment) for n in range(1, projects + 1)}
        self.versions = {n: [Version({}, [])] for n in range(1, projects + 1)}

    def project(self, identifier: bytes) -> int | None:
        for n in self.boards:
            if identifier == n.to_bytes(4, "big") + bytes.fromhex("000080008000") + bytes(6):
                return n
        return None

    def booked(self, status: int, tree: object) -> Answer:
        self.turn += 1
        self.printed = self.turn
        return status, tree, self.turn, []

    def changed(
        self,
        status: int,
        number: int,
        models: Models,
        rules: list[Tree],
        uploaded: Sequence[Element] | None = None,
    ) -> Answer:
        """The reply to a change that makes a version: it counts the model that was uploaded, or the
        version."""
        versions = self.versions[number]
        versions.append(Version(models, rules, versions[-1]))
        counted = uploaded
        if counted is None:
            counted = [element for _, element in versions[-1].elements]
        return self.booked(
            status,
            {
                "elements": len(counted),
                "left": len(versions[-1].undone),
                "triangles": sum(len(it.triangles) for it in counted),
                "version": len(versions) - 1,
            },
        )

    def work(self, buckets: int) -> None:
        """Works up to so many buckets of the last sixteen versions, of the first project and its
        newest version first."""
        for n in sorted(self.versions):
            for version in reversed(self.versions[n][-16:]):
                while version.undone and buckets != 0:
                    version.undone.pop(0)
                    self.turn += 2
                    buckets -= 1
