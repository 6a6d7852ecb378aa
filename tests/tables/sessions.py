"""The session of a row, replayed by the built program, and the files that it puts."""

import concurrent.futures
import json
import os
import subprocess
from collections.abc import Callable, Iterable, Sequence
from typing import Any, NamedTuple

from tests.ifc.basics import body_of, file_of, pipe, points, triangles
from tests.ifc.voids import face
from tests.support.checks import CheckFailed, expect
from tests.support.http import MOMENT, body_in, coord_of, replies_in, request

Point = tuple[int, int, int]
Triangle = tuple[Point, Point, Point]
CELL, GROWTH = 40_000, 10_000  # four metres and a metre, in grid numbers
MOST_MEMBERSHIPS, FEW_MEMBERSHIPS = 2_000_000, 200_000
FARTHEST = 8_000_000
FACE = 5  # the number of the face in its file
SECONDS = 300  # that a session may take, also on a busy machine
CLASHES = request("GET", f"{coord_of()}/versions/newest/clashes")


class Reply(NamedTuple):
    """The status of a reply, and its JSON, or the members of it that are wanted."""

    status: int
    tree: Any


def point(spelled: Sequence[int]) -> Point:
    x, y, z = spelled
    return x, y, z


def triangle(spelled: Sequence[Sequence[int]]) -> Triangle:
    a, b, c = map(point, spelled)
    return a, b, c


def listed(number: int, corners: Iterable[Point]) -> str:
    """A list of points given by their grid numbers, each of which is a hundred micrometres."""
    return points(number, (tuple(100 * it for it in corner) for corner in corners))


def in_micrometres(*statements: str) -> bytes:
    return file_of(*statements).replace(b".MILLI.", b".MICRO.")


def face_file(loops: Sequence[Sequence[Point]]) -> bytes:
    """A pipe of one face, of these loops, the outer one first."""
    return in_micrometres(
        listed(4, [corner for loop in loops for corner in loop]),
        face(FACE, loops),
        f"#6=IFCPOLYGONALFACESET(#4,$,(#{FACE}),$);\n",
        body_of(7, "#6"),
        pipe(9, f"{1:022}", of=8),
    )


def triangle_file(shapes: Sequence[Triangle]) -> bytes:
    """A pipe of each triangle, its place as its identifier."""
    parts = []
    for n, corners in enumerate(shapes):
        k = 10 * (n + 1)
        parts.append(listed(k, corners) + triangles(k + 1, k, "(1,2,3)"))
        parts.append(body_of(k + 2, f"#{k + 1}") + pipe(k + 4, f"{n:022}", of=k + 3))
    return in_micrometres(*parts)


def put(name: str, file: bytes) -> bytes:
    return request("PUT", f"{coord_of()}/models/{name}", file)


def memberships(corners: Iterable[Point]) -> int:
    """How many cells the box of an element with these corners reaches, grown by a metre."""
    count = 1
    for along in zip(*corners, strict=True):
        count *= (max(along) + GROWTH) // CELL - (min(along) - GROWTH) // CELL + 1
    return count


def accepted(elements: int, triangles: int, version: int) -> Reply:
    """A model makes a version."""
    return Reply(201, {"elements": elements, "triangles": triangles, "version": version})


def too_spread(count: int) -> Reply:
    """The refusal of a version with so many memberships."""
    tree = {"code": "K8", "count": count, "limit": MOST_MEMBERSHIPS, "message": "K8 TooSpread"}
    return Reply(507, tree)


def clashes(pairs: Iterable[tuple[str, int, str, int]], version: int) -> Reply:
    """The clashes of a version, by the model and the identifier of both elements of each pair."""
    found = [
        {"a": {"guid": f"{n:022}", "model": a}, "b": {"guid": f"{m:022}", "model": b}, "rule": 0}
        for a, n, b, m in pairs
    ]
    return Reply(200, {"clashes": found, "first": 0, "total": len(found), "version": version})


def set_rules(models: str) -> bytes:
    """One rule that asks for piercing: of elements of any models, or of other ones."""
    rule = {"a": "*", "b": "*", "kind": "pierce", "models": models}
    return request("PUT", f"{coord_of()}/rules", json.dumps({"rules": [rule]}).encode())


def replies(program: str, requests: Sequence[bytes]) -> list[Reply]:
    """What the program answers to a session."""
    words = [program, "replay", "--at", str(MOMENT)]
    run = subprocess.run(
        words, input=b"".join(requests), stdout=subprocess.PIPE, timeout=SECONDS, check=False
    )
    found, rest = replies_in(run.stdout)
    expect((run.returncode, rest) == (0, b""), f"status {run.returncode}, left {rest[:100]!r}")
    expect(len(found) == len(requests), f"{len(found)} replies to {len(requests)} requests")
    return [Reply(int(it[9:12]), json.loads(body_in(it))) for it in found]


def check(program: str, models: str, requests: Sequence[bytes], wanted: Sequence[Reply]) -> None:
    """Ends the row where a reply to the requests, once the rule is set, isn't the one that is
    wanted."""
    got = replies(program, [set_rules(models), *requests])
    for it, reply in zip(got, [Reply(200, {"version": 1}), *wanted], strict=True):
        seen = {name: it.tree.get(name) for name in reply.tree}
        expect((it.status, seen) == reply, f"{it.status} {seen}, wanted {reply}")


def check_all(rows: Sequence[Any], check_row: Callable[[Any], None]) -> None:
    """Checks all rows of a table, as many at once as there are processors, and ends by those that
    fail."""

    def failure(row: Any) -> str:
        try:
            check_row(row)
        except CheckFailed as fault:
            return f"{row['name']} {fault}"
        return ""

    with concurrent.futures.ThreadPoolExecutor(os.cpu_count() or 1) as pool:
        failed = [(n, it) for n, it in enumerate(pool.map(failure, rows)) if it]
    shown = "; ".join(f"row {n}, {text[:300]}" for n, text in failed[:3])
    expect(not failed, f"{len(failed)} of {len(rows)}: {shown}")
