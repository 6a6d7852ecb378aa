"""Faces with holes, each an element of its own: whether its loops are joined, whether the list of
corners is cut, and along which lines."""

import json
import os
from collections.abc import Sequence
from functools import partial
from typing import Any

from tests.oracle.model_file.polygons import Polygon
from tests.oracle.nearness import box_of, boxes_within
from tests.oracle.piercing import pierces
from tests.tables.sessions import (
    CLASHES,
    FACE,
    FARTHEST,
    FEW_MEMBERSHIPS,
    MOST_MEMBERSHIPS,
    Point,
    Reply,
    Triangle,
    accepted,
    check,
    check_all,
    clashes,
    face_file,
    memberships,
    point,
    put,
    too_spread,
    triangle_file,
)

TABLE = os.path.join(os.path.dirname(__file__), "joined_faces.json")
WORDS = {"U15": "FaceStuck", "U16": "VoidedFace"}
HEIGHT = 1000  # of a pin over the face and below it, in grid numbers
MOST_PINS = 100


def loops_of(row: Any) -> list[list[Point]]:
    return [[point(it) for it in loop] for loop in (row["outer"], *row["holes"])]


def edges_of(loops: Sequence[Sequence[Point]]) -> set[frozenset[int]]:
    """The edges of loops, by the places of their ends."""
    edges, first = set(), 0
    for loop in loops:
        places = range(first, first + len(loop))
        edges |= {frozenset((places[n - 1], places[n])) for n in range(len(loop))}
        first += len(loop)
    return edges


def pin_along(a: Point, b: Point, axis: int) -> Triangle | None:
    """A triangle along the axis of the view, of which the face's plane has the line from a to b."""
    flat = [n for n in range(3) if n != axis]
    if all(a[n] == b[n] for n in flat) or abs(a[axis]) + HEIGHT > FARTHEST:
        return None
    x, y, z = (HEIGHT if n == axis else 0 for n in range(3))
    return (a[0] + x, a[1] + y, a[2] + z), (a[0] - x, a[1] - y, a[2] - z), b


def pins_of(row: Any) -> list[Triangle]:
    """A pin along each line by which the face has to be cut, or some of many. No triangle of the
    cut has such a line inside, so a pin pierces none, unless the cut overlaps itself. But it
    pierces those of another cut of a plane face that the line goes through."""
    loops = loops_of(row)
    corners, axis = [corner for loop in loops for corner in loop], Polygon(loops[0]).axis
    sides = [{it[n - 1], it[n]} for it in row["triangles"] for n in range(3)]
    lines = {frozenset(it) for it in sides if len(it) == 2} - edges_of(loops)
    ends = sorted((min(it), max(it)) for it in lines)
    made = [it for a, b in ends if (it := pin_along(corners[a], corners[b], axis))]
    return made[:: 1 + len(made) // MOST_PINS]


def pierced(row: Any, pins: Sequence[Triangle]) -> list[int]:
    """The pins that a triangle of the table's cut pierces."""
    corners = [corner for loop in loops_of(row) for corner in loop]
    cut = [(corners[a], corners[b], corners[c]) for a, b, c in row["triangles"]]
    boxed = [(it, box_of(it)) for it in cut]
    found = []
    for n, pin in enumerate(pins):
        around = box_of(pin)
        if any(boxes_within(around, box, 0) and pierces(pin, it) for it, box in boxed):
            found.append(n)
    return found


def check_face(program: str, row: Any) -> None:
    """The face is refused as the table says, or has as many triangles, and no other line is cut."""
    loops = loops_of(row)
    requests, count = [put("face", face_file(loops))], memberships(sum(loops, []))
    if "fault" in row:
        code = row["fault"]
        fault = {"code": code, "id": FACE, "message": f"{code} {WORDS[code]}"}
        check(program, "other", requests, [Reply(422, fault)])
        return
    if count > MOST_MEMBERSHIPS:
        check(program, "other", requests, [too_spread(count)])
        return
    made, pins = accepted(1, len(row["triangles"]), 2), pins_of(row)
    if not pins or count + sum(map(memberships, pins)) > FEW_MEMBERSHIPS:
        check(program, "other", requests, [made])
        return
    requests += [put("pins", triangle_file(pins)), CLASHES]
    pairs = [("face", 1, "pins", n) for n in pierced(row, pins)]
    more = accepted(len(pins), len(pins), 3)
    check(program, "other", requests, [made, more, clashes(pairs, 3)])


def joined_faces(program: str) -> str:
    """300 faces, each of one to 300 holes."""
    with open(TABLE, encoding="ascii") as file:
        rows = json.load(file)
    check_all(rows, partial(check_face, program))
    stuck = sum("fault" in it for it in rows)
    return f"{len(rows)} faces, {stuck} of which can't be joined or cut"
