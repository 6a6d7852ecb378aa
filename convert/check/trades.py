#!/usr/bin/env python3
"""trades.py IFC2GRID FOLDER: two trades come to one origin, whichever of them is converted first."""

from __future__ import annotations

import subprocess
import sys
from pathlib import Path

from given import given
from model import METRE, Model
from written import read

EAST, NORTH, HEIGHT = 458123456, 5427123456, 112000
# A grid number in mm, with some room for doubles.
STEP = 0.1001


def local_trade() -> str:
    """A wall at zero, with a map conversion."""
    model = Model()
    crs = model.add(f"IFCPROJECTEDCRS('EPSG:25832',$,$,$,$,$,{model.add(METRE)})")
    model.add(f"IFCMAPCONVERSION({model.context},{crs},458123.456,5427123.456,112.,0.8,0.6,1.)")
    model.element([model.block((4000, 200, 3000))])
    return model.text()


def map_trade() -> str:
    """The same wall in millimetres of the map."""
    model = Model()
    place = model.placed((EAST, NORTH, HEIGHT), (0, 0, 1), (0.8, 0.6, 0))
    model.element([model.block((4000, 200, 3000))], placement=place)
    return model.text()


def box(program: str, folder: Path, trade: str, origin: Path) -> list[float]:
    target = folder / f"{trade}.out.ifc"
    words = [program, str(folder / f"{trade}.ifc"), str(target), "--origin-file", str(origin)]
    done = subprocess.run(words, capture_output=True, text=True, timeout=60)
    assert done.returncode in (0, 1), done.stderr
    (element,) = read(target).values()
    return element.box


def check_order(program: str, folder: Path, order: tuple[str, str]) -> None:
    origin = folder / f"origin_{order[0]}.txt"
    origin.unlink(missing_ok=True)
    boxes = [box(program, folder, trade, origin) for trade in order]
    assert origin.exists(), "no origin file was written"
    off = max(abs(a - b) for a, b in zip(*boxes))
    assert off <= STEP, f"{order[0]} first: the boxes are {boxes[0]} and {boxes[1]}"
    size = [boxes[0][k + 3] - boxes[0][k] for k in range(3)]
    # With the map conversion first its angle is taken too, so that the wall lies along x.
    wanted = [4000, 200, 3000] if order[0] == "local" else [3320, 2560, 3000]
    assert all(abs(a - b) <= STEP for a, b in zip(size, wanted)), f"{order[0]} first: the wall is {size}"


def main() -> int:
    program, place = given(__doc__, "ifc2grid", "folder")
    folder = Path(place)
    folder.mkdir(parents=True, exist_ok=True)
    (folder / "local.ifc").write_text(local_trade())
    (folder / "map.ifc").write_text(map_trade())
    failed = 0
    for order in (("local", "map"), ("map", "local")):
        try:
            check_order(program, folder, order)
        except AssertionError as error:
            failed += 1
            print(f"FAILED trades: {error}")
    print(f"trades: {2 - failed} passed, {failed} failed")
    return 1 if failed else 0


if __name__ == "__main__":
    sys.exit(main())
