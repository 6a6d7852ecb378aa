#!/usr/bin/env python3
"""as_it_is.py IFC2GRID SERVER FOLDER: what the report says of a file that might be uploaded without converting it.

Files of face sets in metres, inches and feet, each with its box by hand, and files that the server doesn't take.
Where the report gives no reason, the server makes the same elements of the file itself as of the converted one; where
it gives one, the server refuses the file or makes others of it.
"""

from __future__ import annotations

import json
import subprocess
import sys
from dataclasses import dataclass
from pathlib import Path
from typing import Callable, Optional, Sequence

from cases import CORNERS, FACES, point_list, with_front
from given import given
from model import METRE, MILLIMETRE, Model, conversion, listed
from rows import run_rows
from served import Answer, answers, boxes_of

# A block of one unit, moved by the place of its least corner.
Place = tuple[float, float, float]
ZERO: Place = (0, 0, 0)


@dataclass
class Made:
    """A file with one element, and its box in millimetres where the server takes the file itself."""

    name: str
    text: str
    box: Optional[Sequence[float]]


def face_set(model: Model, size: Place, at: Place = ZERO) -> str:
    """A block as a triangulated face set."""
    points = [[a + c / 1000 * s for a, c, s in zip(at, corner, size)] for corner in CORNERS]
    triangles = []
    for (ring,) in FACES:
        a, b, c, d = (k + 1 for k in ring)
        triangles += [f"({a},{b},{c})", f"({a},{c},{d})"]
    return model.add(f"IFCTRIANGULATEDFACESET({point_list(model, points)},$,.T.,{listed(triangles)},$)")


def polygons(model: Model) -> str:
    """A block of a metre as a polygonal face set."""
    rings = ["(" + ",".join(str(k + 1) for k in ring) + ")" for (ring,) in FACES]
    faces = [model.add(f"IFCINDEXEDPOLYGONALFACE({ring})") for ring in rings]
    return model.add(f"IFCPOLYGONALFACESET({point_list(model, CORNERS)},.T.,{listed(faces)},$)")


def in_unit(name: str, unit: str, size: Place, at: Place, box: Optional[Sequence[float]]) -> Made:
    model = Model(unit=unit)
    model.element([face_set(model, size, at)])
    return Made(name, model.text(), box)


def metric(prefix: str, power: int, box: Optional[Sequence[float]]) -> Made:
    """A block of 1.2 by 0.3 by 2.5005 m, at 0.7 m."""
    unit = f"IFCSIUNIT(*,.LENGTHUNIT.,{prefix},.METRE.)"
    size = tuple(round(metres * 10.0**power, 9) for metres in (1.2, 0.3, 2.5005))
    at = round(0.7 * 10.0**power, 9)
    return in_unit("metre_" + prefix.strip(".$").lower(), unit, (size[0], size[1], size[2]), (at, at, at), box)


def converted(name: str, factor: str, base: str, size: Place, box: Optional[Sequence[float]], at: Place = ZERO) -> Made:
    """A block in a unit by conversion, whose factor and base are given."""
    lines = [f"#1={base};\n", f"#2=IFCMEASUREWITHUNIT({factor},#1);\n"]
    model = with_front(lines, "IFCCONVERSIONBASEDUNIT($,.LENGTHUNIT.,'U',#2)")
    model.element([face_set(model, size, at)])
    return Made(name, model.text(), box)


def by_another() -> Made:
    """Feet of twelve inches each."""
    lines: list[str] = []
    inch = conversion(lines, "INCH", 0.0254)
    lines.append(f"#4={inch};\n")
    lines.append("#5=IFCMEASUREWITHUNIT(IFCRATIOMEASURE(12.),#4);\n")
    model = with_front(lines, "IFCCONVERSIONBASEDUNIT(#3,.LENGTHUNIT.,'FOOT',#5)")
    model.element([face_set(model, (4, 2, 10))])
    return Made("foot_by_the_inch", model.text(), None)


def units() -> list[Made]:
    metres = [700, 700, 700, 1900, 1000, 3200.5]
    made = [metric("$", 0, metres), metric(".MILLI.", 3, metres), metric(".CENTI.", 2, metres)]
    made += [metric(".KILO.", -3, metres), metric(".MICRO.", 6, metres), metric(".NANO.", 9, None)]
    inches, feet = [25.4, 50.8, -12.7, 1041.4, 304.8, 2540], [0, 0, 0, 1219.2, 609.6, 3124.2]
    for name, factor, base in (("mm", "IFCLENGTHMEASURE(25.4)", MILLIMETRE), ("m", "IFCRATIOMEASURE(0.0254)", METRE)):
        made.append(converted(f"inch_by_{name}", factor, base, (40, 10, 100.5), inches, (1, 2, -0.5)))
    for name, factor, base in (("mm", "304.8", MILLIMETRE), ("m", "IFCLENGTHMEASURE(0.3048)", METRE)):
        made.append(converted(f"foot_by_{name}", factor, base, (4, 2, 10.25), feet))
    made.append(converted("foot_of_the_survey", "304.8006", MILLIMETRE, (4, 2, 10), None))
    made.append(converted("yard", "0.9144", METRE, (1, 1, 1), None))
    made.append(converted("sixteenths_of_an_inch", "25.4", MILLIMETRE, (1.0625, 2, 3), None))
    made.append(by_another())
    several = Model()
    several.units.append(several.add(METRE))
    several.element([face_set(several, (1000, 1000, 1000))])
    return made + [Made("two_units", several.text(), None)]


def placed(name: str, x: Place, box: Optional[Sequence[float]]) -> Made:
    """A block of 1000 by 200 by 300 that is turned about its z."""
    model = Model()
    model.element([face_set(model, (1000, 200, 300))], placement=model.placed((10, 20, 30), (0, 0, 1), x))
    return Made(name, model.text(), box)


def mapped(name: str, operator: str, box: Optional[Sequence[float]], deep: bool = False) -> Made:
    model = Model()
    item = face_set(model, (1000, 200, 300))
    for _ in range(2 if deep else 1):
        shape = model.add(f"IFCSHAPEREPRESENTATION({model.context},'Body','Tessellation',({item}))")
        source = model.add(f"IFCREPRESENTATIONMAP({model.identity},{shape})")
        way = operator.format(origin=model.point(5, 0, 0.5), x=model.direction(0, 1, 0), y=model.direction(1, 0, 0))
        item = model.add(f"IFCMAPPEDITEM({source},{model.add('IFCCARTESIANTRANSFORMATIONOPERATOR3D' + way)})")
    model.element([item])
    return Made(name, model.text(), box)


def others() -> list[Made]:
    made = [placed("turned_by_a_quarter", (0, 1, 0), [-190, 20, 30, 10, 1020, 330])]
    made.append(placed("oblique", (0.8, 0.6, 0), None))
    made.append(mapped("mapped_face_set", "($,$,{origin},$,$)", [5, 0, 0.5, 1005, 200, 300.5]))
    made.append(mapped("mapped_and_mirrored", "({x},{y},{origin},1.,$)", [5, 0, 0.5, 205, 1000, 300.5]))
    made.append(mapped("mapped_and_scaled", "($,$,{origin},2.,$)", None))
    made.append(mapped("mapped_twice", "($,$,{origin},$,$)", None, deep=True))
    model = Model()
    model.element([polygons(model)])
    made.append(Made("polygons", model.text(), [0, 0, 0, 1000, 1000, 1000]))
    for schema in ("IFC2X3", "IFC4X3_ADD2"):
        old = Model(schema)
        old.element([face_set(old, (1000, 200, 300))], keyword="IFCCOLUMN")
        made.append(Made(f"schema_{schema}", old.text(), None))
    hollow = Model()
    host = hollow.element([face_set(hollow, (1000, 200, 300))])
    hollow.opening(host, [face_set(hollow, (100, 200, 100), (100, 0, 100))])
    made.append(Made("opening", hollow.text(), None))
    far = Model()
    far.element([face_set(far, (1000, 200, 300), (900000, 0, 0))])
    made.append(Made("far_from_zero", far.text(), None))
    sensor = Model()
    sensor.element([face_set(sensor, (1000, 200, 300))], keyword="IFCSENSOR")
    return made + [Made("other_class", sensor.text(), None)]


def reasons(program: str, source: Path, target: Path, *rest: str) -> list[str]:
    report = target.with_suffix(".json")
    words = [program, str(source), str(target), "--report", str(report), *rest]
    done = subprocess.run(words, capture_output=True, text=True, timeout=60)
    assert done.returncode in (0, 1), f"status {done.returncode}: {done.stderr}"
    found: list[str] = json.loads(report.read_text())["why_not_as_it_is"]
    return found


def elements_of(answer: Answer) -> object:
    """What the server made of a file: boxes by identifier, and how many triangles."""
    return (boxes_of(answer.version), answer.body["triangles"]) if answer.status == 201 else None


def agree(why: list[str], itself: Answer, after: Answer) -> None:
    """The report and the server say the same of a file."""
    same = elements_of(itself) == elements_of(after)
    assert after.status == 201, f"{after.status} {after.body} of the converted file"
    assert same != bool(why), f"{why}, and the server: {itself.status} {itself.body}"


def check_made(program: str, server: str, folder: Path, made: Made) -> None:
    source, target = folder / f"{made.name}.ifc", folder / f"{made.name}.out.ifc"
    source.write_text(made.text)
    why = reasons(program, source, target)
    itself, after = answers(server, [source, target])
    agree(why, itself, after)
    assert bool(why) == (made.box is None), f"{why}"
    coarse = reasons(program, source, target.with_suffix(".coarse.ifc"), "--grid", "1")
    assert coarse == why, f"{coarse} by --grid 1"
    if made.box is not None:
        (box,) = boxes_of(itself.version).values()
        assert box == made.box, f"box {box}, not {made.box}"


def check_case(server: str, source: Path) -> None:
    """One of the files that were made and converted before."""
    report = json.loads(source.with_suffix(".json").read_text())
    itself, after = answers(server, [source, source.with_suffix(".out.ifc")])
    agree(report["why_not_as_it_is"], itself, after)


def main() -> int:
    program, server, place = given(__doc__, "ifc2grid", "server", "folder")
    folder = Path(place)
    own = folder / "as_it_is"
    own.mkdir(parents=True, exist_ok=True)
    checks: dict[str, Callable[[], None]] = {}
    for made in units() + others():
        checks[made.name] = lambda made=made: check_made(program, server, own, made)  # type: ignore[misc]
    for path in sorted((folder / "cases").glob("*.out.ifc")):
        source = path.with_name(path.name.replace(".out.ifc", ".ifc"))
        checks[f"case {source.stem}"] = lambda source=source: check_case(server, source)  # type: ignore[misc]
    return run_rows("as it is", checks)


if __name__ == "__main__":
    sys.exit(main())
