"""Four small files, by which other scripts speak of models."""

from tests.ifc.basics import Block, Corner, small_pipes


def pipes(*corners: Corner) -> list[Block]:
    return [
        (10 * n, f"{10 + n:022}", f"{10 + n:022}", corner) for n, corner in enumerate(corners, 1)
    ]


# one pipe; two pairs of pipes, of which the second pair is 200 or 140 mm apart; two pipes at an
# edge of four cells
BLOCKS: list[list[Block]] = [
    [(4, "0000000000000000000002", "Pipe 1", (0, 0, 0))],
    pipes((1500, 1500, 1500), (1500, 1500, 1550), (9500, 1500, 1500), (9500, 1500, 1700)),
    pipes((1500, 1500, 1500), (1500, 1500, 1550), (9500, 1500, 1500), (9500, 1500, 1640)),
    pipes((3950, 3950, 1500), (3950, 3950, 1510)),
]
FILES = [small_pipes(*blocks) for blocks in BLOCKS]
SMALL_FILE = FILES[0]
