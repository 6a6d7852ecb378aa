"""Pairs of triangles, each two elements under a rule that asks for piercing."""

import json
import os
from functools import partial
from typing import Any

from tests.tables.sessions import (
    CLASHES,
    FEW_MEMBERSHIPS,
    MOST_MEMBERSHIPS,
    accepted,
    check,
    check_all,
    clashes,
    memberships,
    put,
    too_spread,
    triangle,
    triangle_file,
)

TABLE = os.path.join(os.path.dirname(__file__), "pierced_pairs.json")


def spread(row: Any) -> int:
    return memberships(triangle(row["one"])) + memberships(triangle(row["other"]))


def check_pair(program: str, row: Any) -> None:
    """The pair is printed exactly if the triangles pierce, whichever of them is first. Those in
    many cells are tried in one order."""
    one, other, count = triangle(row["one"]), triangle(row["other"]), spread(row)
    if count > MOST_MEMBERSHIPS:
        check(program, "any", [put("m", triangle_file([one, other]))], [too_spread(count)])
        return
    pairs = [("m", 0, "m", 1)] if row["pierce"] else []
    for shapes in ([one, other], [other, one])[: 2 if count < FEW_MEMBERSHIPS else 1]:
        requests = [put("m", triangle_file(shapes)), CLASHES]
        check(program, "any", requests, [accepted(2, 2, 2), clashes(pairs, 2)])


def pierced_pairs(program: str) -> str:
    """300 pairs of triangles."""
    with open(TABLE, encoding="ascii") as file:
        rows = json.load(file)
    check_all(rows, partial(check_pair, program))
    piercing = sum(it["pierce"] for it in rows)
    refused = sum(spread(it) > MOST_MEMBERSHIPS for it in rows)
    return f"{len(rows)} pairs, {piercing} of which pierce, {refused} refused for their size"
