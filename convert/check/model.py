"""Builds small IFC files for tests: instances get their numbers here, so that a case is a few lines."""

from __future__ import annotations

from typing import Iterable, Optional, Sequence

HEADER = """ISO-10303-21;
HEADER;
FILE_DESCRIPTION((''),'2;1');
FILE_NAME('a.ifc','2024-05-01T12:00:00',(''),(''),'','','');
FILE_SCHEMA(('{schema}'));
ENDSEC;
DATA;
"""

MILLIMETRE = "IFCSIUNIT(*,.LENGTHUNIT.,.MILLI.,.METRE.)"
METRE = "IFCSIUNIT(*,.LENGTHUNIT.,$,.METRE.)"

Vector = Sequence[float]


def number(value: float) -> str:
    """A real as Part 21 spells it."""
    text = repr(float(value))
    if "e" in text:
        mantissa, exponent = text.split("e")
        if "." not in mantissa:
            mantissa += "."
        return f"{mantissa}E{int(exponent)}"
    return text


def numbers(values: Iterable[float]) -> str:
    return "(" + ",".join(number(value) for value in values) + ")"


def listed(items: Iterable[str]) -> str:
    return "(" + ",".join(items) + ")"


class Model:
    """A file with one project, building and storey."""

    def __init__(self, schema: str = "IFC4", unit: str = MILLIMETRE, angle: Optional[str] = None) -> None:
        self.schema = schema
        self.lines: list[str] = []
        self.elements: list[str] = []
        self.units: list[str] = []
        self.unit = self.add(unit)
        self.units.append(self.unit)
        if angle:
            self.units.append(self.add(angle))
        self.origin = self.point(0, 0, 0)
        self.identity = self.add(f"IFCAXIS2PLACEMENT3D({self.origin},$,$)")
        self.up = self.direction(0, 0, 1)
        self.world = self.identity
        self.context = self.next_name()
        self.lines.append("")
        self.context_line = len(self.lines) - 1
        self.placement = self.add(f"IFCLOCALPLACEMENT($,{self.identity})")

    def next_name(self) -> str:
        return f"#{len(self.lines) + 1}"

    def add(self, text: str) -> str:
        name = self.next_name()
        self.lines.append(f"{name}={text};\n")
        return name

    def guid(self) -> str:
        return f"'{len(self.lines) + 1:022d}'"

    # Points, directions, placements

    def point(self, *at: float) -> str:
        return self.add(f"IFCCARTESIANPOINT({numbers(at)})")

    def direction(self, *way: float) -> str:
        return self.add(f"IFCDIRECTION({numbers(way)})")

    def axes(self, at: Vector, z: Optional[Vector] = None, x: Optional[Vector] = None) -> str:
        axis = self.direction(*z) if z else "$"
        reference = self.direction(*x) if x else "$"
        return self.add(f"IFCAXIS2PLACEMENT3D({self.point(*at)},{axis},{reference})")

    def axes2(self, x: float = 0, y: float = 0) -> str:
        return self.add(f"IFCAXIS2PLACEMENT2D({self.point(x, y)},$)")

    def placed(self, at: Vector, z: Optional[Vector] = None, x: Optional[Vector] = None) -> str:
        return self.add(f"IFCLOCALPLACEMENT($,{self.axes(at, z, x)})")

    # Curves and profiles

    def polyline(self, points: Sequence[Vector]) -> str:
        return self.add(f"IFCPOLYLINE({listed([self.point(*p) for p in points])})")

    def ring(self, points: Sequence[Vector]) -> str:
        names = [self.point(*p) for p in points]
        return self.add(f"IFCPOLYLINE({listed(names + names[:1])})")

    def profile(self, curve: str, holes: Sequence[str] = ()) -> str:
        if holes:
            return self.add(f"IFCARBITRARYPROFILEDEFWITHVOIDS(.AREA.,$,{curve},{listed(holes)})")
        return self.add(f"IFCARBITRARYCLOSEDPROFILEDEF(.AREA.,$,{curve})")

    def measured(self, kind: str, *measures: float, at: Vector = (0, 0), missing: int = 0) -> str:
        """A profile by its measures; `missing` ones that aren't given follow."""
        values = [number(value) for value in measures] + ["$"] * missing
        return self.add(f"{kind}(.AREA.,$,{self.axes2(*at)},{','.join(values)})")

    def rectangle(self, x: float, y: float, at: Vector = (0, 0)) -> str:
        return self.measured("IFCRECTANGLEPROFILEDEF", x, y, at=at)

    # Solids

    def extruded(self, profile: str, height: float, at: Optional[Vector] = None) -> str:
        place = self.axes(at) if at else self.identity
        return self.add(f"IFCEXTRUDEDAREASOLID({profile},{place},{self.up},{number(height)})")

    def block(self, size: Vector, at: Vector = (0, 0, 0)) -> str:
        profile = self.rectangle(size[0], size[1], at=(size[0] / 2, size[1] / 2))
        return self.extruded(profile, size[2], at=at)

    def brep(self, kind: str, shell: str, points: Sequence[Vector], faces: Sequence[Sequence[Sequence[int]]]) -> str:
        corners = [self.point(*p) for p in points]
        names = []
        for rings in faces:
            bounds = []
            for place, ring in enumerate(rings):
                loop = self.add(f"IFCPOLYLOOP({listed([corners[k] for k in ring])})")
                bound = "IFCFACEBOUND" if place else "IFCFACEOUTERBOUND"
                bounds.append(self.add(f"{bound}({loop},.T.)"))
            names.append(self.add(f"IFCFACE({listed(bounds)})"))
        body = self.add(f"{shell}({listed(names)})")
        several = kind in ("IFCSHELLBASEDSURFACEMODEL", "IFCFACEBASEDSURFACEMODEL")
        return self.add(f"{kind}(({body}))" if several else f"{kind}({body})")

    # Elements

    def shape(self, items: Sequence[str], kind: str = "SweptSolid", identifier: str = "'Body'") -> str:
        text = f"IFCSHAPEREPRESENTATION({self.context},{identifier},'{kind}',{listed(items)})"
        return self.add(f"IFCPRODUCTDEFINITIONSHAPE($,$,({self.add(text)}))")

    def element(
        self,
        items: Sequence[str],
        keyword: str = "IFCWALL",
        placement: Optional[str] = None,
        identifier: str = "'Body'",
        name: str = "W",
    ) -> str:
        shape = self.shape(items, identifier=identifier)
        place = placement or self.placement
        last = ",$" if self.schema != "IFC2X3" and keyword == "IFCWALL" else ""
        made = self.add(f"{keyword}({self.guid()},$,'{name}',$,$,{place},{shape},${last})")
        self.elements.append(made)
        return made

    def opening(self, host: str, items: Sequence[str]) -> str:
        place = self.add(f"IFCLOCALPLACEMENT({self.placement},{self.identity})")
        last = "" if self.schema == "IFC2X3" else ",$"
        shape = self.shape(items)
        made = self.add(f"IFCOPENINGELEMENT({self.guid()},$,'O',$,$,{place},{shape},${last})")
        self.add(f"IFCRELVOIDSELEMENT({self.guid()},$,$,$,{host},{made})")
        return made

    def aggregate(self, whole: str, parts: Sequence[str]) -> str:
        return self.add(f"IFCRELAGGREGATES({self.guid()},$,$,$,{whole},{listed(parts)})")

    def storey(self, name: str, elements: Sequence[str], height: float = 0.0) -> str:
        place = f"IFCBUILDINGSTOREY({self.guid()},$,'{name}',$,$,$,$,$,.ELEMENT.,{number(height)})"
        storey = self.add(place)
        if elements:
            relation = f"{self.guid()},$,$,$,{listed(elements)},{storey}"
            self.add(f"IFCRELCONTAINEDINSPATIALSTRUCTURE({relation})")
        return storey

    def text(self) -> str:
        """The whole file: a storey `EG` takes the elements that were added to none."""
        if self.elements:
            self.storey("EG", self.elements)
        units = self.add(f"IFCUNITASSIGNMENT({listed(self.units)})")
        self.add(f"IFCPROJECT({self.guid()},$,'P',$,$,$,$,({self.context}),{units})")
        self.lines[
            self.context_line
        ] = f"{self.context}=IFCGEOMETRICREPRESENTATIONCONTEXT($,'Model',3,1.E-05,{self.world},$);\n"
        return HEADER.format(schema=self.schema) + "".join(self.lines) + "ENDSEC;\nEND-ISO-10303-21;\n"


def conversion(model_lines: list[str], name: str, metres: float) -> str:
    """A unit by a factor of the metre, as three instances before it; gives the unit's own text."""
    base = len(model_lines) + 1
    model_lines.append(f"#{base}={METRE};\n")
    model_lines.append(f"#{base + 1}=IFCMEASUREWITHUNIT(IFCRATIOMEASURE({number(metres)}),#{base});\n")
    model_lines.append(f"#{base + 2}=IFCDIMENSIONALEXPONENTS(1,0,0,0,0,0,0);\n")
    return f"IFCCONVERSIONBASEDUNIT(#{base + 2},.LENGTHUNIT.,'{name}',#{base + 1})"
