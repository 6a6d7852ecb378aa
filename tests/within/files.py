"""Files with more of each kind than 16 bits count, or as many as there may be."""

from tests.ifc.basics import (
    TAIL,
    body_of,
    file_of,
    pipe,
    pipes,
    points,
    shape,
    small_pipes,
    triangle,
    triangles,
)
from tests.ifc.crowds import chain, long_name, mapped, placed, shared_storey
from tests.ifc.limits import with_instances, with_values
from tests.ifc.polygons import broad_comb, combs
from tests.ifc.voids import Loops, faces_with_voids, windows
from tests.support.checks import expect
from tests.within.asking import MODEL, Asking

MANY = 70_000  # more than 16 bits count
MOST_BYTES = 33_554_432
GRIDS = ("exact", "snap")


def apart(count: int, step: int = 300) -> bytes:
    """So many pipes, each with a list, a set and a shape of its own."""
    rows = ((n % 300 * step, n // 300 * step, 0) for n in range(count))
    return small_pipes(*((10 + 5 * n, f"{n:022}", "p", at) for n, at in enumerate(rows)))


def own_shapes(program: str) -> str:
    """70,000 pipes, each with a list of points, a set and a shape of its own, in both grids, and
    the version lists each."""
    file = apart(MANY)
    with Asking(program) as it:
        it.upload(file, MANY)
        it.upload(file, MANY, "snap")
        it.listed(2, MANY)
    return f"{len(file) / 1e6:.1f} MB"


def placements(program: str) -> str:
    """70,000 pipes with a placement of their own, and one at the end of a chain of 150,000."""
    with Asking(program) as it:
        it.upload(placed(MANY, 100, 300, 300), MANY)
        it.upload(chain(150_000, 1), 1)
    return f"{MANY} placements, a chain of 150,000"


def storeys(program: str) -> str:
    """70,000 walls in one storey whose name has 5,000 bytes, and pipes in one whose name has a
    million."""
    with Asking(program) as it:
        it.upload(shared_storey(MANY, 5000), MANY)
        it.upload(long_name(20, 1_000_000), 20)
        it.listed(2, 20)
    return "names of 5,000 and 1,000,000 bytes"


def set_of(faces: int) -> bytes:
    """A pipe of one set of so many polygonal faces."""
    names = range(100, 100 + faces)
    return file_of(
        points(4, [(0, 0), (100, 0), (0, 100)]),
        *(f"#{name}=IFCINDEXEDPOLYGONALFACE((1,2,3));\n" for name in names),
        f"#5=IFCPOLYGONALFACESET(#4,$,({','.join(f'#{name}' for name in names)}),$);\n",
        shape(),
        pipe(8, "p" * 22),
    )


def pieces(program: str) -> str:
    """A pipe of 300,000 pieces, of a set that is mapped so often, a set with a million triangles
    over a list of 100,000 points, and one with 70,000 faces."""
    faces = ",".join(["(1,2,100000)"] * 1_000_000)
    corners = points(4, [(n % 1000, n // 1000, n % 7) for n in range(100_000)])
    with Asking(program) as it:
        it.upload(mapped(300_000), 1)
        it.upload(file_of(corners, triangles(5, 4, faces), shape(), pipe(8, "p" * 22)), 1)
        it.upload(set_of(MANY), 1)
    return f"300,000 pieces, 1,000,000 triangles, {MANY} faces"


def holes(corners: int) -> Loops:
    """A face with 332 holes of three corners each, and so many corners round it."""
    return windows(corners, 332, 3)


def faces(program: str) -> str:
    """Faces of 1,000 corners, as many as there may be in a face, also in 332 holes, and ones of
    1,001 are refused."""
    with Asking(program) as it:
        it.upload(combs(20, 1000), 20)
        made = it.upload(faces_with_voids(holes(4), 1), 1)
        expect(made["triangles"] == 1000 + 2 * 332 - 2, f"{made['triangles']} triangles")
        corners = broad_comb(1001)
        loop = ",".join(str(n + 1) for n in range(1001))
        file = file_of(
            points(4, corners),
            f"#5=IFCINDEXEDPOLYGONALFACE(({loop}));\n#6=IFCPOLYGONALFACESET(#4,$,(#5),$);\n",
            body_of(7, "#6"),
            pipe(9, "p" * 22, of=8),
        )
        for bad in (file, faces_with_voids(holes(5), 1)):
            refused = it.ask("PUT", MODEL, bad, 422)
            expect((refused["code"], refused["what"]) == ("U19", "corners"), f"{refused}")
    return "21 of 1,000 corners"


def triangles_of(loops: Loops) -> int:
    """How many triangles a face with holes is cut into: two less than its list has corners, to
    which each bridge adds two."""
    return sum(map(len, loops)) + 2 * (len(loops) - 1) - 2


def voids(program: str) -> str:
    """Faces of 1,000 corners in 300 holes, and in 50, with all their triangles."""
    with Asking(program) as it:
        for loops in (windows(100, 300, 3), windows(50, 50, 19)):
            made = it.upload(faces_with_voids(loops, 20), 20)
            wanted = 20 * triangles_of(loops)
            expect(made["triangles"] == wanted, f"{made['triangles']} triangles, wanted {wanted}")
    return "20 faces in 300 holes, 20 in 50"


def padded(file: bytes, size: int) -> bytes:
    """The file with a comment before its end, so that it has so many bytes."""
    start, end = file[: -len(TAIL)], file[-len(TAIL) :]
    return start + b"/*" + b"x" * (size - len(file) - 5) + b"*/\n" + end


def greatest(program: str) -> str:
    """Files of 33,554,432 bytes, with a million instances, and with eight million values, in both
    grids; one with 400,000 instances and a fault is refused for the fault."""
    files = {
        "bytes": padded(file_of(triangle(), shape(), pipe(8, "p" * 22)), MOST_BYTES),
        "instances": with_instances(1_000_000),
        "values": with_values(8_000_000),
    }
    expect(len(files["bytes"]) == MOST_BYTES, f"{len(files['bytes'])} bytes")
    with Asking(program) as it:
        for file in files.values():
            for grid in GRIDS:
                it.upload(file, 1, grid)
        bad = with_instances(400_000).replace(b"(1,2,3)", b"(1,2,4)")
        refused = it.ask("PUT", MODEL, bad, 422)
        expect(refused["code"] == "U14", f"{refused}")
    return ", ".join(f"{what} in {len(file) / 1e6:.1f} MB" for what, file in files.items())


def farthest(program: str) -> str:
    """Points 800 metres from zero are taken, and those a tenth of a millimetre farther aren't."""
    with Asking(program) as it:
        for sign in (1, -1):
            corners = [(sign * 800_000, 0), (sign * 799_900, 0), (sign * 799_900, 100)]
            file = file_of(points(4, corners), triangles(5, 4, "(1,2,3)"), shape(), pipes(1))
            it.upload(file, 1)
            bad = file.replace(b"800000.,", b"800000.1,")
            refused = it.ask("PUT", MODEL, bad, 422)
            expect(refused["code"] == "U10", f"{refused}")
    return "on both sides"


FILES = [farthest, own_shapes, placements, storeys, pieces, faces, voids, greatest]
