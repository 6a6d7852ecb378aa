"""IFC files of boxes, made for tests: what they hold is known from the call."""

from __future__ import annotations

from dataclasses import dataclass

HEAD = """ISO-10303-21;
HEADER;
FILE_DESCRIPTION((''),'2;1');
FILE_NAME('a.ifc','2024-05-01T12:00:00',(''),(''),'','','');
FILE_SCHEMA(('{schema}'));
ENDSEC;
DATA;
#1=IFCPROJECT('0000000000000000000001',$,'P',$,$,$,$,(),#2);
#2=IFCUNITASSIGNMENT((#3));
#3=IFCSIUNIT(*,.LENGTHUNIT.,.MILLI.,.METRE.);
"""
TAIL = "ENDSEC;\nEND-ISO-10303-21;\n"
FACES = (
    "(1,3,2),(2,3,4),(5,6,7),(6,8,7),(1,2,5),(2,6,5),"
    "(3,7,4),(4,7,8),(1,5,3),(3,5,7),(2,4,6),(4,8,6)"
)


@dataclass(frozen=True)
class Block:
    """A cuboid of a class: its least corner and its sizes in millimetres."""

    number: int
    at: tuple[float, float, float]
    size: tuple[float, float, float]
    keyword: str = "IFCPIPESEGMENT"
    name: str = "Rohr"
    storey: str | None = None

    @property
    def guid(self) -> str:
        """Its GlobalId: the number in 22 digits."""
        return f"{self.number:022d}"


def spelled(text: str) -> str:
    r"""A text as a Part 21 file writes it, with what isn't ASCII by `\X2\..\X0\`."""
    parts = [c if c.isascii() else f"\\X2\\{ord(c):04X}\\X0\\" for c in text.replace("'", "''")]
    return "'" + "".join(parts) + "'"


def block_lines(block: Block, first: int) -> str:
    """The five instances of a cuboid, numbered from `first`; the last is the element."""
    x, y, z = block.at
    w, d, h = block.size
    points = ",".join(
        f"({x + w * (p & 1):.3f},{y + d * (p >> 1 & 1):.3f},{z + h * (p >> 2):.3f})"
        for p in range(8)
    )
    return (
        f"#{first}=IFCCARTESIANPOINTLIST3D(({points}));\n"
        f"#{first + 1}=IFCTRIANGULATEDFACESET(#{first},$,$,({FACES}),$);\n"
        f"#{first + 2}=IFCSHAPEREPRESENTATION($,'Body','Tessellation',(#{first + 1}));\n"
        f"#{first + 3}=IFCPRODUCTDEFINITIONSHAPE($,$,(#{first + 2}));\n"
        f"#{first + 4}={block.keyword}('{block.guid}',$,{spelled(block.name)},"
        f"$,$,$,#{first + 3},$,$);\n"
    )


def model(blocks: list[Block], schema: str = "IFC4") -> str:
    """A file of cuboids, each in its storey; the first begins at line 11 with #10."""
    text = HEAD.format(schema=schema)
    for place, block in enumerate(blocks):
        text += block_lines(block, 10 * (place + 1))
    storeys = sorted({one.storey for one in blocks if one.storey is not None})
    for place, storey in enumerate(storeys):
        own = 9000 + 10 * place
        members = [f"#{10 * (at + 1) + 4}" for at, one in enumerate(blocks) if one.storey == storey]
        text += (
            f"#{own}=IFCBUILDINGSTOREY('{own:022d}',$,{spelled(storey)},$,$,$,$,$,$,$);\n"
            f"#{own + 1}=IFCRELCONTAINEDINSPATIALSTRUCTURE('{own + 1:022d}',$,$,$,"
            f"({','.join(members)}),#{own});\n"
        )
    return text + TAIL
