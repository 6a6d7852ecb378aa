"""Reads files that the converter writes: the profile of one instance a line, nothing else."""

from __future__ import annotations

import re
from dataclasses import dataclass, field
from pathlib import Path
from typing import Optional

Point = tuple[float, float, float]


@dataclass
class Element:
    guid: str
    keyword: str
    name: str
    storey: Optional[str]
    points: list[Point]
    triangles: list[tuple[int, int, int]]
    box: list[float] = field(default_factory=list)

    def __post_init__(self) -> None:
        used = [self.points[k] for triangle in self.triangles for k in triangle]
        low = [min(p[k] for p in used) for k in range(3)]
        high = [max(p[k] for p in used) for k in range(3)]
        self.box = low + high

    def volume(self) -> float:
        """Cubic metres, negative where the surface is inside out."""
        total = 0.0
        start = self.points[0]
        for triangle in self.triangles:
            a, b, c = ([self.points[k][axis] - start[axis] for axis in range(3)] for k in triangle)
            total += a[0] * (b[1] * c[2] - b[2] * c[1])
            total += a[1] * (b[2] * c[0] - b[0] * c[2])
            total += a[2] * (b[0] * c[1] - b[1] * c[0])
        return total / 6e9


ELEMENT = re.compile(r"(#\d+)=(IFC\w+)\('([^']*)',\$,(\$|'(?:[^']|'')*'),")


def rows(line: str) -> list[list[str]]:
    return [row.split(",") for row in re.findall(r"\(([-\d.,]+)\)", line)]


def read(path: Path) -> dict[str, Element]:
    """The elements of a file by their identifiers."""
    elements: dict[str, Element] = {}
    names: dict[str, str] = {}
    storeys: dict[str, str] = {}
    points: list[Point] = []
    triangles: list[tuple[int, int, int]] = []
    for line in path.read_bytes().decode("latin1").splitlines():
        if "=IFCCARTESIANPOINTLIST3D(" in line:
            points = [(float(x), float(y), float(z)) for x, y, z in rows(line)]
        elif "=IFCTRIANGULATEDFACESET(" in line:
            triangles = [(int(a) - 1, int(b) - 1, int(c) - 1) for a, b, c in rows(line)]
        elif "=IFCBUILDINGSTOREY(" in line:
            storeys[line.split("=")[0]] = re.findall(r"'((?:[^']|'')*)'", line)[1]
        elif "=IFCRELCONTAINEDINSPATIALSTRUCTURE(" in line:
            within = re.search(r"\(([#\d,]+)\),(#\d+)\)", line)
            assert within
            for name in within[1].split(","):
                elements[names[name]].storey = storeys[within[2]]
        elif "=IFCPROJECT(" not in line:
            found = ELEMENT.match(line)
            if found:
                guid = found[3]
                names[found[1]] = guid
                elements[guid] = Element(guid, found[2], found[4].strip("'"), None, points, triangles)
    return elements
