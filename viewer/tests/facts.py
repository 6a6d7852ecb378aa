"""What the made building holds, read from its files by the tests themselves, and clashes compared by hand."""
import re
from dataclasses import dataclass
from typing import Any

ELEMENT = re.compile(r"^#(\d+)=(IFC\w+)\('([^']{22})',\$,'([^']*)',\$,\$,\$,#\d+,", re.M)
POINTS = re.compile(r"^#(\d+)=IFCCARTESIANPOINTLIST3D\(\((.*)\)\);$", re.M)
STOREY = re.compile(r"^#(\d+)=IFCBUILDINGSTOREY\('[^']*',\$,'([^']*)'", re.M)
INSIDE = re.compile(r"^#\d+=IFCRELCONTAINEDINSPATIALSTRUCTURE\('[^']*',\$,\$,\$,\(([#\d,]*)\),#(\d+)\);", re.M)
FACES = re.compile(r"^#(\d+)=IFCTRIANGULATEDFACESET\(#\d+,\$,\.T\.,\((.*)\),\$\);$", re.M)


@dataclass(frozen=True)
class Element:
    """One element of a file."""

    model: str
    kind: str
    guid: str
    name: str
    storey: str
    box: tuple[int, ...]
    triangles: int


def box_of(text: str) -> tuple[int, ...]:
    """The box of a list of points as it is spelled."""
    numbers = [int(v) for v in re.findall(r"(-?\d+)\.", text)]
    sides = [numbers[k::3] for k in range(3)]
    return tuple([min(s) for s in sides] + [max(s) for s in sides])


def elements(model: str, text: str) -> list[Element]:
    """The elements of a file of `sample.py`, where each follows its own mesh."""
    names = dict(STOREY.findall(text))
    storeys = {}
    for listed, storey in INSIDE.findall(text):
        for element in listed.split(","):
            storeys[element.lstrip("#")] = names[storey]
    boxes = {int(n): box_of(points) for n, points in POINTS.findall(text)}
    faces = {int(n): listed.count("(") for n, listed in FACES.findall(text)}
    return [
        Element(model, kind, guid, name, storeys[n], boxes[int(n) - 4], faces[int(n) - 3])
        for n, kind, guid, name in ELEMENT.findall(text)
        if kind != "IFCBUILDINGSTOREY"
    ]


def boxes(version: dict[str, Any], model: str) -> dict[str, list[float]]:
    """The boxes of a model's elements in millimetres, from the server's own reply: `per_mm` is its grid, 1 where it doesn't say."""
    per = version.get("per_mm", 1)
    listed = [e for m in version["models"] if m["name"] == model for e in m["elements"]]
    return {e["guid"]: [v / per for v in e["box"]] for e in listed}


def pair(clash: dict[str, Any]) -> frozenset[tuple[str, str]]:
    """A clash as the set of its two elements."""
    return frozenset((side["model"], side["guid"]) for side in (clash["a"], clash["b"]))
