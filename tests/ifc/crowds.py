"""Files of many elements that share a shape, a placement or a storey."""

from tests.ifc.basics import (
    TAIL,
    body_of,
    file_of,
    in_storey,
    pipe,
    pipes,
    placement,
    points,
    shape,
    small_pipes,
    storey,
    triangle,
    triangles,
)


def placed(count: int, side: int, step: int, rows: int = 47, each: int = 1) -> bytes:
    """A file of so many pipes of one triangle with legs of `side` millimetres, which share it and
    are `step` apart, so many at each place."""
    parts = [triangle(side), shape()]
    for n in range(count):
        place, k = n // each, 10 + 4 * n
        x, y, z = place % rows, place // rows % rows, place // rows // rows
        parts.append(
            placement(k, ((x - rows // 2) * step, (y - rows // 2) * step, (z - rows // 2) * step))
        )
        parts.append(pipe(k + 3, f"{n:022}", placement=f"#{k + 2}"))
    return file_of(*parts)


def crowded(sets: int) -> bytes:
    """So many pipes, each of a thousand triangles, which they share."""
    faces = ",".join(["(1,2,3)"] * 1000)
    return file_of(
        points(4, [(0, 0), (100, 0), (0, 100)]),
        triangles(5, 4, faces),
        shape(),
        *(pipe(10 + n, f"{n:022}") for n in range(sets)),
    )


def nameless(count: int) -> bytes:
    """So many fans without names, fifty at each of 2,000 places that are nine metres apart."""
    parts = [triangle(), shape()]
    parts += [placement(10 + 3 * n, (n % 50 * 9000, n // 50 * 9000, 0)) for n in range(2000)]
    for n in range(count):
        parts.append(f"#{10000 + n}=IFCFAN('{n:022}',$,$,$,$,#{12 + 3 * (n % 2000)},#7,$,$);\n")
    return file_of(*parts)


def walls(count: int) -> bytes:
    """So many walls that share one shape of one triangle."""
    named = (
        f"#{at + 8}=IFCWALL('{at + 1:022d}',$,'Wall {at}',$,$,$,#7,$,$);\n" for at in range(count)
    )
    return file_of(triangle(), shape(), *named)


def shared_shape(count: int) -> bytes:
    """So many walls that share one shape of so many representations, of which the last alone is a
    body."""
    kinds = ["Axis"] * (count - 1) + ["Body"]
    whole, listed = 10 + count, ",".join(f"#{10 + at}" for at in range(count))
    return file_of(
        triangle(),
        *(
            f"#{10 + at}=IFCSHAPEREPRESENTATION($,'{kind}','Tessellation',(#5));\n"
            for at, kind in enumerate(kinds)
        ),
        f"#{whole}=IFCPRODUCTDEFINITIONSHAPE($,$,({listed}));\n",
        *(
            f"#{whole + 1 + at}=IFCWALL('{at + 1:022d}',$,'W',$,$,$,#{whole},$,$);\n"
            for at in range(count)
        ),
    )


def shared_storey(count: int, size: int) -> bytes:
    """So many walls of one triangle in one storey, whose name has so many bytes."""
    return file_of(
        triangle(),
        shape(),
        storey(8, "0000000000000000000001", "s" * size),
        *(f"#{10 + at}=IFCWALL('{at + 10:022d}',$,$,$,$,$,#7,$,$);\n" for at in range(count)),
        in_storey(9, "0000000000000000000002", range(10, 10 + count), 8),
    )


def two_storeys(count: int, size: int) -> bytes:
    """So many pipes at one place, by turns in one of two storeys whose names are the same and have
    so many bytes."""
    end, parts = 10 + 4 * count, []
    for k in range(2):
        parts.append(storey(end + k, f"{k:022}", "n" * size))
        members = [13 + 4 * n for n in range(count) if n % 2 == k]
        parts.append(in_storey(end + 2 + k, f"{k + 2:022}", members, end + k))
    return "".join([placed(count, 100, 0).decode().removesuffix(TAIL), *parts, TAIL]).encode()


def long_name(count: int, size: int) -> bytes:
    """A file of so many pipes in one storey, whose name has so many bytes."""
    numbers = [100 + 10 * n for n in range(count)]
    blocks = [(number, f"{n:022}", "p", (1000 * n, 0, 0)) for n, number in enumerate(numbers)]
    named = storey(4, "s" * 22, "n" * size) + in_storey(5, "r" * 22, [k + 4 for k in numbers], 4)
    return "".join([small_pipes(*blocks).decode().removesuffix(TAIL), named, TAIL]).encode()


def chain(length: int, count: int) -> bytes:
    """So many pipes at the end of a chain of placements."""
    axis = "#8=IFCCARTESIANPOINT((0.,0.,0.));\n#9=IFCAXIS2PLACEMENT3D(#8,$,$);\n"
    links = (
        f"#{200000 + n}=IFCLOCALPLACEMENT({f'#{199999 + n}' if n else '$'},#9);\n"
        for n in range(length)
    )
    return file_of(triangle(), shape(), axis, *links, pipes(count, placement=f"#{199999 + length}"))


def parts(depth: int) -> bytes:
    """A part of a part, so deep."""
    wholes = (
        f"#{1000 + 2 * n}=IFCELEMENTASSEMBLY('{n:022}',$,$,$,$,$,$,$,$,$);\n"
        f"#{1001 + 2 * n}=IFCRELAGGREGATES('{n + 500000:022}',$,$,$,"
        f"#{1000 + 2 * n},(#{1002 + 2 * n}));\n"
        for n in range(depth)
    )
    return file_of(triangle(), shape(), *wholes, pipe(1000 + 2 * depth, f"{depth:022}"))


def mapped(count: int, zero: str = "0.") -> bytes:
    """One pipe whose body is one triangle so often, each time by an operator whose origin has a
    zero that is spelled so."""
    return file_of(
        triangle(),
        shape(),
        f"#8=IFCCARTESIANPOINT((0.,0.,{zero}));\n#9=IFCAXIS2PLACEMENT3D(#8,$,$);\n",
        "#10=IFCREPRESENTATIONMAP(#9,#6);\n",
        "#11=IFCCARTESIANTRANSFORMATIONOPERATOR3D($,$,#8,$,$);\n#12=IFCMAPPEDITEM(#10,#11);\n",
        "#13=IFCSHAPEREPRESENTATION($,'Body','MappedRepresentation',",
        f"({','.join(['#12'] * count)}));\n",
        "#14=IFCPRODUCTDEFINITIONSHAPE($,$,(#13));\n",
        pipes(1, of=14),
    )


def sheets(count: int, apart: int = 3, height: int = 3000) -> bytes:
    """Corrugated sheets of 1,000 triangles, one above the other, whose boxes meet and which don't
    touch."""
    corners = [(500 + 6 * n, y, height if n % 2 else 0) for n in range(501) for y in (500, 3500)]
    strips = ((2 * n + 1, 2 * n + 2, 2 * n + 3, 2 * n + 4) for n in range(500))
    faces = ",".join(f"({a},{b},{c}),({b},{d},{c})" for a, b, c, d in strips)
    all_parts = [points(4, corners), triangles(5, 4, faces), shape()]
    for n in range(count):
        all_parts.append(placement(10 + 4 * n, (0, 0, apart * n)))
        all_parts.append(pipe(13 + 4 * n, f"{n:022}", placement=f"#{12 + 4 * n}"))
    return file_of(*all_parts)


def sharing(sets: int, count: int) -> bytes:
    """So many sets of one triangle over one list of so many points."""
    return file_of(
        points(4, [(1, 2, 3)] * count),
        *(triangles(1000 + n, 4, f"(1,2,{count})") for n in range(sets)),
        body_of(6, ",".join(f"#{1000 + n}" for n in range(sets))),
        pipes(1, 8),
    )


def plates(*heights: int) -> bytes:
    """A pipe of one triangle for each height, whose legs are as long as a model may be wide."""
    side = 799_000
    parts = []
    for n, height in enumerate(heights):
        at = 10 + 10 * n
        corners = [(-side, -side, height), (side, -side, height), (-side, side, height)]
        parts += [points(at, corners), triangles(at + 1, at, "(1,2,3)")]
        parts += [body_of(at + 2, f"#{at + 1}"), pipe(at + 4, f"{n:022}", of=at + 3)]
    return file_of(*parts)
