"""Files of polygonal faces with voids, by their loops: the outer one first."""

import math
from collections.abc import Sequence

from tests.ifc.basics import body_of, file_of, pipes, points, shape
from tests.ifc.polygons import Flat

Loops = list[Flat]


def round_loop(centre: tuple[int, int], radius: int, corners: int) -> Flat:
    """A regular polygon, turned a little, so that no two edges lie along the axes."""
    turns = [2 * math.pi * n / corners + 0.3 for n in range(corners)]
    x, y = centre
    return [(x + round(radius * math.cos(t)), y + round(radius * math.sin(t))) for t in turns]


def windows(outer: int, holes: int, corners: int, reach: int = 40_000) -> Loops:
    """A round face of so many corners, with so many holes in rows, each of so many corners."""
    side, radius = math.ceil(math.sqrt(holes)), reach // 80
    places = [round(reach * (n / max(side - 1, 1) - 0.5)) for n in range(side)]
    centres = [(x, y) for y in places for x in places][:holes]
    return [round_loop((0, 0), reach, outer), *(round_loop(c, radius, corners) for c in centres)]


def ring(reach: int, to_right: bool) -> Flat:
    """A square ring of 12 corners, open on one side."""
    inner, gap, side = reach - 700, 300, 1 if to_right else -1
    half = [(reach, -gap), (reach, -reach), (-reach, -reach)]
    outside = half + [(x, -y) for x, y in reversed(half)]
    within = [(inner, gap), (inner, inner), (-inner, inner)]
    inside = within + [(x, -y) for x, y in reversed(within)]
    return [(side * x, y) for x, y in outside + inside]


def rings(count: int) -> Loops:
    """A square with so many open rings in it, each inside the next, from the innermost on. Each is
    seen from the one round it alone, so the last is joined first."""
    reach = 2000 * (count + 2)
    square = [(-reach, -reach), (reach, -reach), (reach, reach), (-reach, reach)]
    return [square, *(ring(2000 * (n + 1), n % 2 == 0) for n in range(count))]


def face(number: int, loops: Sequence[Sequence[object]]) -> str:
    """The face of these loops, by the corners of the list that has one loop after another."""
    first, spelled = 1, []
    for loop in loops:
        spelled.append("(" + ",".join(str(first + n) for n in range(len(loop))) + ")")
        first += len(loop)
    holes = ",".join(spelled[1:])
    return f"#{number}=IFCINDEXEDPOLYGONALFACEWITHVOIDS({spelled[0]},({holes}));\n"


def corners_of(loops: Loops) -> Flat:
    return [corner for loop in loops for corner in loop]


def listed_voids(loops: Loops, listed: int, faces: int = 1) -> bytes:
    """A pipe of so many faces with the same loops, which are listed by turns, so often in all."""
    names = ",".join(f"#{100 + n % faces}" for n in range(listed))
    return file_of(
        points(4, corners_of(loops)),
        *(face(100 + n, loops) for n in range(faces)),
        f"#5=IFCPOLYGONALFACESET(#4,$,({names}),$);\n",
        shape(),
        pipes(1, 2000),
    )


def faces_with_voids(loops: Loops, count: int) -> bytes:
    """So many slabs, each of one face of its own with the same loops."""
    parts = []
    for element in range(count):
        k, guid = 10 + element * 10, f"{element + 1:022d}"
        parts.append(points(k, corners_of(loops)))
        parts.append(face(k + 5, loops))
        parts.append(f"#{k + 1}=IFCPOLYGONALFACESET(#{k},$,(#{k + 5}),$);\n")
        parts.append(body_of(k + 2, f"#{k + 1}"))
        parts.append(f"#{k + 4}=IFCSLAB('{guid}',$,'{guid}',$,$,$,#{k + 3},$,$);\n")
    return file_of(*parts)
