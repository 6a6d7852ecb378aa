"""Files to upload: those of the cases that the document names, and boxes."""

from __future__ import annotations

from collections.abc import Sequence

from .case_reader import read_case
from .document import Document, Node

LOW = -400_000
CELL = 4_000
MARGIN = 1_000
FRONT = [
    "ISO-10303-21;",
    "HEADER;",
    "FILE_DESCRIPTION((''),'2;1');",
    "FILE_NAME('a.ifc','2024-05-01T12:00:00',(''),(''),'','','');",
    "FILE_SCHEMA(('IFC4'));",
    "ENDSEC;",
    "DATA;",
    "#1=IFCPROJECT('0000000000000000000001',$,'P',$,$,$,$,(),#2);",
    "#2=IFCUNITASSIGNMENT((#3));",
    "#3=IFCSIUNIT(*,.LENGTHUNIT.,.MILLI.,.METRE.);",
]
Box = tuple[Sequence[int], Sequence[int]]


def _element(number: int, box: Box) -> list[str]:
    """A pipe of one triangle that has this box."""
    (a, b, c), (d, e, f) = box
    at = 10 * number
    return [
        f"#{at}=IFCCARTESIANPOINTLIST3D((({a}.,{b}.,{c}.),({d}.,{b}.,{f}.),({a}.,{e}.,{c}.)));",
        f"#{at + 1}=IFCTRIANGULATEDFACESET(#{at},$,$,((1,2,3)),$);",
        f"#{at + 2}=IFCSHAPEREPRESENTATION($,'Body','Tessellation',(#{at + 1}));",
        f"#{at + 3}=IFCPRODUCTDEFINITIONSHAPE($,$,(#{at + 2}));",
        f"#{at + 4}=IFCPIPESEGMENT('{number:022}',$,'Pipe {number}',$,$,$,#{at + 3},$,$);",
    ]


def file_of(boxes: Sequence[Box]) -> bytes:
    """A file with a pipe for each box."""
    lines = list(FRONT)
    for number, box in enumerate(boxes, 1):
        lines += _element(number, box)
    return "".join(it + "\n" for it in [*lines, "ENDSEC;", "END-ISO-10303-21;"]).encode()


def twins(*cells: int) -> bytes:
    """Two elements in the same cells, so many along each axis: each cell is a bucket."""
    low = [LOW + MARGIN] * 3
    high = [LOW + CELL * it - MARGIN - 1 for it in cells]
    return file_of([(low, high), (low, high)])


def many_elements(count: int) -> bytes:
    """So many elements at one place, which share their shape."""
    lines = FRONT + _element(1, ((0, 0, 0), (100, 100, 0)))
    shape = 13
    lines += [
        f"#{100 + n}=IFCPIPESEGMENT('{n:022}',$,'x',$,$,$,#{shape},$,$);"
        for n in range(2, count + 1)
    ]
    return "".join(it + "\n" for it in [*lines, "ENDSEC;", "END-ISO-10303-21;"]).encode()


TWO_PIPES = file_of([((0, 0, 0), (100, 100, 0)), ((0, 0, 40), (100, 100, 40))])


def _bodies(examples: Node) -> list[bytes]:
    found = []
    for example in examples.values():
        requests, _ = read_case(example["x-case"])
        found.append(requests[example["x-request"] - 1].body)
    return found


def files_of_cases(document: Document) -> tuple[list[bytes], list[bytes]]:
    """Files that make a model, and one for each code of an upload that a case has."""
    operation = document.named("putModel")
    good = _bodies(next(iter(operation.body.values())).get("examples", {}))
    return good, _bodies(operation.responses[422].examples)
