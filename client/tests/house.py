"""A small house for tests: which of its elements clash is worked out here by hand.

The rule is 50 mm. The wall fills x 0..4000, y 0..200, z 0..2500. Pipe 11 runs through it; pipe 12
ends 40 mm before it; pipe 13 ends 60 mm before it and is far from the other two. So with the wall
in one model and the pipes in another, 11 and 12 clash with the wall, 13 doesn't, and no two pipes
come within 50 mm of each other.
"""

from __future__ import annotations

from models import Block, model

RULES = '{"rules": [{"a": "*", "b": "*", "distance": 50}]}'
WALL = Block(1, (0, 0, 0), (4000, 200, 2500), "IFCWALL", "Außenwand", "Erdgeschoß")
THROUGH = Block(11, (500, -1000, 1000), (100, 2000, 100), name="Rohr 11", storey="Erdgeschoß")
CLOSE = Block(12, (1500, 240, 1000), (100, 1000, 100), name="Rohr 12", storey="Erdgeschoß")
FAR = Block(13, (2500, 260, 1000), (100, 1000, 100), name="=Rohr 13", storey="1. OG")
MOVED = Block(13, (2500, 210, 1000), (100, 1000, 100), name="=Rohr 13", storey="1. OG")

WALLS = model([WALL])
PIPES = model([THROUGH, CLOSE, FAR])
PIPES_AFTER = model([THROUGH, MOVED])
"""Pipe 12 is taken away and pipe 13 comes within 10 mm of the wall."""


def pairs(clashes: list[dict[str, dict[str, str]]]) -> list[tuple[str, str]]:
    """Clashes of --json as pairs of model and number of the element."""
    return [
        (
            f"{one['a']['model']} {int(one['a']['guid'])}",
            f"{one['b']['model']} {int(one['b']['guid'])}",
        )
        for one in clashes
    ]
