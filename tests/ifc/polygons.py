"""Files of polygonal faces with up to a thousand corners."""

import math

from tests.ifc.basics import body_of, file_of, pipe, pipes, points, shape

Flat = list[tuple[int, int]]


def comb() -> Flat:
    """The corners of a comb of 499 pointed teeth."""
    teeth = [corner for n in range(499) for corner in ((10 * n + 5, 1000), (10 * n + 10, 10))]
    return [(0, 0), *teeth, (5010, 0)]


def broad_comb(count: int) -> Flat:
    """The corners of a comb: teeth two corners wide at their ends, and a back."""
    teeth = [(10 * at, (0, 100000, 100000, 1)[at % 4]) for at in range(count - 2)]
    return [*teeth, (10 * (count - 2), -1000), (0, -1000)]


def convex() -> Flat:
    return [(10 * n, n * n) for n in range(-500, 500)]


def strip() -> Flat:
    """A strip that winds round itself."""

    def side(more: int) -> Flat:
        turns = [(n / 4, 100 + 10 * n + more) for n in range(500)]
        return [(round(10 * r * math.cos(t)), round(10 * r * math.sin(t))) for t, r in turns]

    return side(0) + side(8)[::-1]


def loop(count: int) -> str:
    """The corners of a face, from the first to the last."""
    return ",".join(map(str, range(1, count + 1)))


def polygons(corners: Flat, faces: int, listed: int = 1, count: int = 1, sets: int = 1) -> bytes:
    """So many pipes share so many sets of the same faces, each listed so often."""
    names = ",".join(f"#{100 + n}" for n in range(faces) for _ in range(listed))
    return file_of(
        points(4, corners),
        *(f"#{100 + n}=IFCINDEXEDPOLYGONALFACE(({loop(len(corners))}));\n" for n in range(faces)),
        *(f"#{100000 + n}=IFCPOLYGONALFACESET(#4,$,({names}),$);\n" for n in range(sets)),
        shape(",".join(f"#{100000 + n}" for n in range(sets))),
        pipes(count, 2000),
    )


def listed_faces(sets: int, times: int) -> bytes:
    """A file of one pipe whose body is so many sets, each of which lists one convex face of 1,000
    corners so often."""
    names = ",".join(["#5"] * times)
    return file_of(
        points(4, convex()),
        f"#5=IFCINDEXEDPOLYGONALFACE(({loop(1000)}));\n",
        body_of(6, ",".join(f"#{100 + n}" for n in range(sets))),
        pipe(8, "p" * 22),
        *(f"#{100 + n}=IFCPOLYGONALFACESET(#4,$,({names}),$);\n" for n in range(sets)),
    )


def combs(count: int, corners: int) -> bytes:
    """So many beams, each of one polygonal face of its own that is a comb."""
    parts = []
    for element in range(count):
        k, guid = 10 + element * 10, f"{element + 1:022d}"
        parts.append(points(k, broad_comb(corners)))
        parts.append(f"#{k + 5}=IFCINDEXEDPOLYGONALFACE(({loop(corners)}));\n")
        parts.append(f"#{k + 1}=IFCPOLYGONALFACESET(#{k},$,(#{k + 5}),$);\n")
        parts.append(body_of(k + 2, f"#{k + 1}"))
        parts.append(f"#{k + 4}=IFCBEAM('{guid}',$,'{guid}',$,$,$,#{k + 3},$,$);\n")
    return file_of(*parts)
