#!/usr/bin/env python3
"""hostile.py IFC2GRID FOLDER: small files that ask for much work or depth: each has to end soon, with a word."""

from __future__ import annotations

import math
import subprocess
import sys
from pathlib import Path
from typing import Callable

from given import given
from model import Model, listed, numbers

SECONDS = 60
GIBIBYTES = 3


def doubled_maps() -> Model:
    """Mapped shapes that use the one below twice, 40 deep: a million million boxes."""
    model = Model()
    item = model.block((100, 100, 100))
    operator = model.add(f"IFCCARTESIANTRANSFORMATIONOPERATOR3D($,$,{model.origin},$,$)")
    for _ in range(40):
        shape = model.add(f"IFCSHAPEREPRESENTATION({model.context},'Body','SweptSolid',({item},{item}))")
        source = model.add(f"IFCREPRESENTATIONMAP({model.identity},{shape})")
        item = model.add(f"IFCMAPPEDITEM({source},{operator})")
    model.element([item])
    return model


def doubled_curves() -> Model:
    model = Model()
    curve = model.polyline([(0, 0), (0, 0)])
    for _ in range(60):
        segment = model.add(f"IFCCOMPOSITECURVESEGMENT(.CONTINUOUS.,.T.,{curve})")
        curve = model.add(f"IFCCOMPOSITECURVE(({segment},{segment}),.F.)")
    model.element([model.extruded(model.profile(curve), 100)])
    return model


def doubled_profiles() -> Model:
    model = Model()
    profile = model.rectangle(10, 10)
    for _ in range(60):
        profile = model.add(f"IFCCOMPOSITEPROFILEDEF(.AREA.,$,({profile},{profile}),$)")
    model.element([model.extruded(profile, 100)])
    return model


def doubled_booleans() -> Model:
    model = Model()
    solid = model.block((100, 100, 100))
    for _ in range(60):
        solid = model.add(f"IFCBOOLEANRESULT(.UNION.,{solid},{solid})")
    model.element([solid])
    return model


def deep_lists() -> Model:
    model = Model()
    model.element([model.add("IFCPOLYLINE(" + "(" * 100000 + ")" * 100000 + ")")])
    return model


def long_placements() -> Model:
    model = Model()
    place = model.placement
    for _ in range(5000):
        place = model.add(f"IFCLOCALPLACEMENT({place},{model.identity})")
    model.element([model.block((100, 100, 100))], placement=place)
    return model


def many_corners() -> Model:
    """A star of 15,000 corners, cut by another one."""
    model = Model()
    points = []
    for k in range(15000):
        angle, radius = 2 * math.pi * k / 15000, 1000 if k % 2 else 900
        points.append((radius * math.cos(angle), radius * math.sin(angle)))
    solid = model.extruded(model.profile(model.ring(points)), 100)
    model.element([model.add(f"IFCBOOLEANRESULT(.DIFFERENCE.,{solid},{solid})")])
    return model


def wild_spline() -> Model:
    model = Model()
    points = listed([model.point(1e12 * (-1) ** k, 1e12 * (k % 3)) for k in range(200)])
    knots = f"(4,{','.join(['1'] * 196)},4),{numbers(range(198))},.UNSPECIFIED."
    curve = model.add(f"IFCBSPLINECURVEWITHKNOTS(3,{points},.UNSPECIFIED.,.F.,.F.,{knots})")
    model.element([model.add(f"IFCSWEPTDISKSOLID({curve},1.E9,$,$,$)")])
    return model


MAKERS: list[Callable[[], Model]] = [
    doubled_maps,
    doubled_curves,
    doubled_profiles,
    doubled_booleans,
    deep_lists,
    long_placements,
    many_corners,
    wild_spline,
]


def failure(program: str, folder: Path, make: Callable[[], Model]) -> str:
    source, target = folder / f"{make.__name__}.ifc", folder / "out.ifc"
    source.write_text(make().text())
    limit = f'ulimit -v {GIBIBYTES << 20}; exec "$0" "$@"'
    words = ["sh", "-c", limit, program, str(source), str(target)]
    try:
        done = subprocess.run(words, capture_output=True, text=True, timeout=SECONDS)
    except subprocess.TimeoutExpired:
        return f"it didn't end in {SECONDS} s"
    if done.returncode not in (0, 1, 3) or "please report" in done.stderr:
        return f"status {done.returncode}: {done.stderr}"
    return ""


def main() -> int:
    program, place = given(__doc__, "ifc2grid", "folder")
    folder = Path(place)
    folder.mkdir(parents=True, exist_ok=True)
    failed = 0
    for make in MAKERS:
        reason = failure(program, folder, make)
        if reason:
            failed += 1
            print(f"FAILED hostile, {make.__name__}: {reason}")
    print(f"hostile: {len(MAKERS) - failed} passed, {failed} failed")
    return 1 if failed else 0


if __name__ == "__main__":
    sys.exit(main())
