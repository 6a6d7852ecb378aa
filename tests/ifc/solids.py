"""Files of boxes and tubes, as models have them, by the thousand."""

import math
from collections.abc import Iterator
from random import Random

from tests.ifc.basics import HEAD, TAIL, Corner, body_of, file_of, pipe, points, triangles

BOX = (
    "(1,3,2),(2,3,4),(5,6,7),(6,8,7),(1,2,5),(2,6,5),"
    "(3,7,4),(4,7,8),(1,5,3),(3,5,7),(2,4,6),(4,8,6)"
)


def corners_of(low: Corner, sides: Corner) -> list[Corner]:
    """The eight corners of a box, from the lowest to the highest, by x first."""
    high = tuple(a + b for a, b in zip(low, sides))
    return [
        (x, y, z) for z in (low[2], high[2]) for y in (low[1], high[1]) for x in (low[0], high[0])
    ]


def drawn_boxes(count: int, room: Corner) -> Iterator[tuple[Corner, Corner]]:
    """The lowest corners and the sides of boxes in a building of that size, always the same."""
    state = 1
    for _ in range(count):
        drawn = []
        for _ in range(6):
            state = (state * 6364136223846793005 + 1442695040888963407) % 2**64
            drawn.append(state >> 33)
        a, b, c = (100 + number % 900 for number in drawn[3:])
        yield (drawn[0] % room[0], drawn[1] % room[1], drawn[2] % room[2]), (a, b, c)


def chained(number: int, element: int, depth: int) -> str:
    """A placement of a chain of so many, which begins anew with each so many elements."""
    parent = f"#{number - 10}" if element % depth else "$"
    return (
        f"#{number}=IFCLOCALPLACEMENT({parent},#{number + 1});\n"
        f"#{number + 1}=IFCAXIS2PLACEMENT3D(#{number + 2},$,$);\n"
        f"#{number + 2}=IFCCARTESIANPOINT((1.,0.,0.));\n"
    )


def boxes(count: int, depth: int = 0, room: Corner = (40000, 40000, 12000)) -> bytes:
    """So many boxes in a building of that size; each placed at the end of a chain of so many
    placements, where the depth isn't 0."""
    parts = []
    for element, (low, sides) in enumerate(drawn_boxes(count, room)):
        k, guid = 10 + element * 10, f"{element + 1:022d}"
        parts.append(points(k, corners_of(low, sides)))
        parts.append(triangles(k + 1, k, BOX, ".T."))
        parts.append(body_of(k + 2, f"#{k + 1}"))
        parts.append(chained(k + 5, element, depth) if depth else "")
        kind, place = "PIPESEGMENT" if element % 2 else "BEAM", f"#{k + 5}" if depth else "$"
        parts.append(f"#{k + 4}=IFC{kind}('{guid}',$,'{guid}',$,$,{place},#{k + 3},$,$);\n")
    return file_of(*parts)


def boxes_at(corners: list[Corner], side: int = 400) -> bytes:
    """Boxes of one size at these places."""
    parts = []
    for element, corner in enumerate(corners):
        k, guid = 10 + 10 * element, f"{element:022}"
        parts.append(points(k, corners_of(corner, (side, side, side))))
        parts.append(triangles(k + 1, k, BOX))
        parts.append(body_of(k + 2, f"#{k + 1}"))
        parts.append(pipe(k + 4, guid, f"'{guid}'", of=k + 3))
    return file_of(*parts)


def spread(count: int, moved: int = 0) -> bytes:
    """Boxes in a cube that grows with their number, about one in eight cubic metres; one of them is
    moved."""
    side, chance = round((8 * count) ** (1 / 3) * 1000), Random(count)
    corners = [
        (chance.randrange(side), chance.randrange(side), chance.randrange(side))
        for _ in range(count)
    ]
    x, y, z = corners[count // 2]
    corners[count // 2] = (x + moved, y, z)
    return boxes_at(corners)


def heap(count: int) -> bytes:
    """Boxes that all meet each other."""
    return boxes_at([(i % 40, i // 40, 0) for i in range(count)])


def property_sets(boxes_before: bytes, count: int) -> bytes:
    """A file of so many boxes, each with two sets of eight properties that nothing of a surface
    refers to."""
    parts, number = [boxes_before.decode().removesuffix(TAIL)], 10 + 10 * count
    for element in range(count):
        for name in ("Pset_BeamCommon", "Pset_ManufacturerTypeInformation"):
            for at in range(8):
                value = f"IFCLABEL('a value of {element}, {at}')"
                parts.append(
                    f"#{number + at}=IFCPROPERTYSINGLEVALUE('Property {at}',$,{value},$);\n"
                )
            listed, guid = ",".join(f"#{number + at}" for at in range(8)), f"{number + 8:022d}"
            parts.append(f"#{number + 8}=IFCPROPERTYSET('{guid}',$,'{name}',$,({listed}));\n")
            relation, of = f"'{number + 9:022d}',$,$,$", f"(#{14 + 10 * element})"
            parts.append(
                f"#{number + 9}=IFCRELDEFINESBYPROPERTIES({relation},{of},#{number + 8});\n"
            )
            number += 10
    return "".join([*parts, TAIL]).encode()


def tube_faces(lengths: int) -> str:
    """The triangles of a closed tube of 32 sides: its foot, so many lengths, its top."""
    rows = [(1, at + 2, at + 1) for at in range(1, 31)]
    for first in range(1, 32 * lengths, 32):
        for at in range(32):
            low, right = first + at, first + (at + 1) % 32
            rows += [(low, right, low + 32), (right, right + 32, low + 32)]
    top = 32 * lengths + 1
    rows += [(top, top + at, top + at + 1) for at in range(1, 31)]
    return ",".join("(%d,%d,%d)" % row for row in rows)


def tubes(count: int) -> bytes:
    """So many tubes of 32 sides in one to three lengths."""
    turns = [math.pi * at / 16 for at in range(32)]
    ring = [(round(900 * math.cos(turn)), round(900 * math.sin(turn))) for turn in turns]
    parts = [HEAD]
    for element in range(count):
        x, y, z = element * 7919 % 40000, element * 104729 % 40000, element * 1299709 % 12000
        lengths, k = 1 + element % 3, 10 + 10 * element
        parts.append(
            points(k, [(x + a, y + b, z + 400 * at) for at in range(lengths + 1) for a, b in ring])
        )
        parts.append(triangles(k + 1, k, tube_faces(lengths), ".T."))
        parts.append(body_of(k + 2, f"#{k + 1}"))
        parts.append(pipe(k + 4, f"{element + 1:022d}", "'tube'", of=k + 3))
    return "".join([*parts, TAIL]).encode()
