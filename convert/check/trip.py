#!/usr/bin/env python3
"""trip.py IFC2GRID SERVER HOUSE FOLDER: three exports of different kinds, converted and checked for clashes.

The house, a pipe in inches (IFC2X3, a flow segment) and a round column as an advanced brep stand in one place. Both
cross the middle of one inner wall, and by the boxes that assimp reads no other one.
"""

from __future__ import annotations

import json
import subprocess
import sys
from pathlib import Path

from cases import with_front
from given import given
from model import Model, conversion, number
from surfaces import Shell, capped

WALL = "2XPyKWY018sA1ygZKgQPtU"
MIDDLE = (9000, 4130, 1000)
RADIUS = 200


def pipe(folder: Path) -> str:
    """A pipe through the wall; gives its identifier."""
    lines: list[str] = []
    model = with_front(lines, conversion(lines, "INCH", 0.0254))
    model.schema = "IFC2X3"
    x, y, z = MIDDLE
    points = [[value / 25.4 for value in (x, y + off, z)] for off in (-190, 190)]
    solid = model.add(f"IFCSWEPTDISKSOLID({model.polyline(points)},{number(50 / 25.4)},{number(45 / 25.4)},0.,1.)")
    made = model.element([solid], keyword="IFCFLOWSEGMENT")
    kind = model.add(f"IFCPIPESEGMENTTYPE({model.guid()},$,'P',$,$,$,$,$,$,.RIGIDSEGMENT.)")
    model.add(f"IFCRELDEFINESBYTYPE({model.guid()},$,$,$,({made}),{kind})")
    (folder / "pipes.ifc").write_text(model.text())
    return guid_of(model, made)


def column(folder: Path) -> str:
    shell = Shell(Model())
    model = shell.model
    low, high = capped(shell, RADIUS, 1000)
    line = shell.line((RADIUS, 0, 0), (RADIUS, 0, 1000))
    surface = model.add(f"IFCCYLINDRICALSURFACE({model.identity},{number(RADIUS)})")
    shell.face(surface, [[(low, True), (line, True), (high, False), (line, False)]])
    made = model.element([shell.solid()], keyword="IFCCOLUMN", placement=model.placed(MIDDLE))
    (folder / "columns.ifc").write_text(model.text())
    return guid_of(model, made)


def guid_of(model: Model, name: str) -> str:
    (line,) = [line for line in model.lines if line.startswith(name + "=")]
    return line.split("'")[1]


def walls_that_meet_the_column(house: Path) -> list[str]:
    """By assimp's boxes and the file's own keywords."""
    text = house.read_bytes().decode("latin1")
    low = (MIDDLE[0] - RADIUS, MIDDLE[1] - RADIUS, MIDDLE[2])
    high = (MIDDLE[0] + RADIUS, MIDDLE[1] + RADIUS, MIDDLE[2] + 1000)
    found = []
    for line in Path(__file__).with_name("house_boxes.txt").read_text().splitlines():
        guid, *sizes = line.split()
        box = [float(size) for size in sizes]
        meets = all(box[k] <= high[k] and box[k + 3] >= low[k] for k in range(3))
        if meets and f"IFCWALLSTANDARDCASE('{guid}'" in text:
            found.append(guid)
    return found


def check(program: str, server: str, house: Path, folder: Path) -> None:
    guids = {"pipes": pipe(folder), "columns": column(folder)}
    assert walls_that_meet_the_column(house) == [WALL], "the column isn't where it should be"
    (folder / "house.ifc").write_bytes(house.read_bytes())
    models = ["house", "pipes", "columns"]
    for name in models:
        words = [program, f"{folder}/{name}.ifc", f"{folder}/{name}.out.ifc", "--origin-file", f"{folder}/origin.txt"]
        done = subprocess.run(words, capture_output=True, text=True, timeout=60)
        assert done.returncode == 0, f"status {done.returncode} of {name}: {done.stdout}{done.stderr}"
    kinds = ("IFCPIPESEGMENT", "IFCCOLUMN")
    rules = [{"a": kind, "b": "IFCWALLSTANDARDCASE", "distance": 2} for kind in kinds]
    (folder / "rules.json").write_text(json.dumps({"rules": rules}))
    words = [server, "check", "--rules", f"{folder}/rules.json"] + [f"{n}={folder}/{n}.out.ifc" for n in models]
    done = subprocess.run(words, capture_output=True, text=True, timeout=170)
    wanted = {("columns", guids["columns"], "1"), ("pipes", guids["pipes"], "0")}
    found = set()
    for line in done.stdout.splitlines()[:-1]:
        a_model, a, b_model, b, rule = line.split()
        assert ("house", WALL) in ((a_model, a), (b_model, b)), line
        found.add((a_model, a, rule) if b_model == "house" else (b_model, b, rule))
    assert found == wanted, f"{done.stdout}{done.stderr}"


def main() -> int:
    program, server, *paths = given(__doc__, "ifc2grid", "server", "house", "folder")
    house, folder = map(Path, paths)
    folder.mkdir(parents=True, exist_ok=True)
    try:
        check(program, server, house, folder)
    except AssertionError as error:
        print(f"FAILED trip: {error}")
        print("trip: 0 passed, 1 failed")
        return 1
    print("trip: 1 passed, 0 failed")
    return 0


if __name__ == "__main__":
    sys.exit(main())
