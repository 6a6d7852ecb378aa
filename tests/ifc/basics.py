"""What each file begins and ends with: a project in millimetres, a shape of one triangle, pipes of
it."""

from collections.abc import Iterable

Corner = tuple[int, int, int]
# A pipe of one small triangle: its number in the file, its identifier, its name, the corner at the
# right angle.
Block = tuple[int, str, str, Corner]

HEAD = """ISO-10303-21;
HEADER;
FILE_DESCRIPTION((''),'2;1');
FILE_NAME('a.ifc','2024-05-01T12:00:00',(''),(''),'','','');
FILE_SCHEMA(('IFC4'));
ENDSEC;
DATA;
#1=IFCPROJECT('0000000000000000000001',$,'P',$,$,$,$,(),#2);
#2=IFCUNITASSIGNMENT((#3));
#3=IFCSIUNIT(*,.LENGTHUNIT.,.MILLI.,.METRE.);
"""
TAIL = "ENDSEC;\nEND-ISO-10303-21;\n"


def file_of(*statements: str) -> bytes:
    """A file of the project and these statements, from number 4 on."""
    return "".join([HEAD, *statements, TAIL]).encode()


def points(number: int, corners: Iterable[tuple[int, ...]]) -> str:
    """A list of points; one of two coordinates lies at height 0."""
    spelled = ",".join("(" + ",".join(f"{it}." for it in (*c, 0)[:3]) + ")" for c in corners)
    return f"#{number}=IFCCARTESIANPOINTLIST3D(({spelled}));\n"


def triangles(number: int, corners: int, faces: str, closed: str = "$") -> str:
    """A set of triangles over a list of points."""
    return f"#{number}=IFCTRIANGULATEDFACESET(#{corners},$,{closed},({faces}),$);\n"


def body_of(number: int, items: str) -> str:
    """A shape with one body, of these items: the representation by the number, the shape by the
    next."""
    return (
        f"#{number}=IFCSHAPEREPRESENTATION($,'Body','Tessellation',({items}));\n"
        f"#{number + 1}=IFCPRODUCTDEFINITIONSHAPE($,$,(#{number}));\n"
    )


def triangle(side: int = 100) -> str:
    """A right triangle at the origin by its legs: its points are number 4, its set number 5."""
    return points(4, [(0, 0), (side, 0), (0, side)]) + triangles(5, 4, "(1,2,3)")


def shape(items: str = "#5") -> str:
    """The shape of number 7, whose body of number 6 has these items."""
    return body_of(6, items)


def pipe(number: int, guid: str, name: str = "$", placement: str = "$", of: int = 7) -> str:
    """A pipe segment with the shape of a number."""
    return f"#{number}=IFCPIPESEGMENT('{guid}',$,{name},$,$,{placement},#{of},$,$);\n"


def pipes(count: int, first: int = 1000, placement: str = "$", of: int = 7) -> str:
    """So many pipes with one shape, from a number on."""
    return "".join(pipe(first + n, f"{n:022}", placement=placement, of=of) for n in range(count))


def placement(number: int, corner: Corner, parent: str = "$") -> str:
    """A placement by three numbers, of which the last is its own."""
    x, y, z = corner
    return (
        f"#{number}=IFCCARTESIANPOINT(({x}.,{y}.,{z}.));\n"
        f"#{number + 1}=IFCAXIS2PLACEMENT3D(#{number},$,$);\n"
        f"#{number + 2}=IFCLOCALPLACEMENT({parent},#{number + 1});\n"
    )


def small_pipes(*blocks: Block) -> bytes:
    """A file of pipes of one triangle each, whose legs are 100 millimetres, each with a shape of
    its own."""
    parts = []
    for number, guid, name, (x, y, z) in blocks:
        parts.append(points(number, [(x, y, z), (x + 100, y, z), (x, y + 100, z)]))
        parts.append(triangles(number + 1, number, "(1,2,3)"))
        parts.append(body_of(number + 2, f"#{number + 1}"))
        parts.append(pipe(number + 4, guid, f"'{name}'", of=number + 3))
    return file_of(*parts)


def storey(number: int, guid: str, name: str) -> str:
    return f"#{number}=IFCBUILDINGSTOREY('{guid}',$,'{name}',$,$,$,$,$,.ELEMENT.,$);\n"


def in_storey(number: int, guid: str, members: Iterable[int], of: int) -> str:
    """The relation by which elements are in a storey."""
    listed = ",".join(f"#{it}" for it in members)
    return f"#{number}=IFCRELCONTAINEDINSPATIALSTRUCTURE('{guid}',$,$,$,({listed}),#{of});\n"
