#!/usr/bin/env python3
"""house.py IFC2GRID HOUSE FOLDER: a real house (AC14-FZK-Haus.ifc) against figures that aren't the converter's.

Boxes are those that assimp reads (house_boxes.txt, made by house_boxes.cpp), classes and storeys are read from the
file by the few lines below, two volumes are worked out by hand.
"""

from __future__ import annotations

import json
import re
import subprocess
import sys
from pathlib import Path
from typing import Callable

from given import given
from rows import run_rows
from written import Element, read

# A gable's wall: its plan is a trapezium 12 + 2 y wide from y = -0.3 to 0 (metres), its top slopes by 30 degrees and
# is 0.5 - y tan 30 high. The integral of (12 + 2 y) (0.5 - y tan 30) over y is 2.0563767.
# An inner wall: a trapezium of (5.69 + 5.45) / 2 by 0.24, 2.5 high, less a door of 0.885 by 2.01.
VOLUMES = {
    "25OWQvmXj5BPgyergP43tY": 2.0563767,
    "3PfS__Y_DBAfq5naM6zD2Z": (5.69 + 5.45) / 2 * 0.24 * 2.5 - 0.885 * 2.01 * 0.24,
}


def run(program: str, source: Path, target: Path, *words: str) -> dict[str, Element]:
    report = target.with_suffix(".json")
    line = [program, str(source), str(target), "--report", str(report), *words]
    done = subprocess.run(line, capture_output=True, text=True, timeout=100)
    assert done.returncode == 0, f"status {done.returncode}: {done.stdout}{done.stderr}"
    elements = read(target)
    said = json.loads(report.read_text())
    assert said["elements"] == len(elements), f"the report says {said['elements']} elements"
    triangles = sum(len(element.triangles) for element in elements.values())
    assert said["triangles"] == triangles, f"the report says {said['triangles']} triangles"
    return elements


def check_boxes(elements: dict[str, Element], most: float) -> None:
    boxes = {}
    for line in Path(__file__).with_name("house_boxes.txt").read_text().splitlines():
        guid, *sizes = line.split()
        boxes[guid] = [float(size) for size in sizes]
    for guid, element in elements.items():
        off = max(abs(a - b) for a, b in zip(element.box, boxes[guid]))
        assert off <= most, f"the box of {guid} is off by {off} mm"


def check_tree(elements: dict[str, Element], text: str) -> None:
    """Classes and storeys by the file's own words: one instance a line, decomposed ones through their whole."""
    instances = {m[1]: (m[2], m[3]) for m in re.finditer(r"^#(\d+)=\s*(\w+)\((.*)\);\r?$", text, re.M)}
    holder: dict[str, str] = {}
    for keyword, values in instances.values():
        names = re.findall(r"#(\d+)", values)
        if keyword == "IFCRELCONTAINEDINSPATIALSTRUCTURE":
            holder.update({part: names[-1] for part in names[1:-1]})
        elif keyword == "IFCRELAGGREGATES":
            holder.update({part: names[1] for part in names[2:]})
    storeys: dict[str, str] = {}
    for name, (keyword, values) in instances.items():
        if keyword == "IFCBUILDINGSTOREY":
            storeys[name] = re.findall(r"'((?:[^']|'')*)'", values)[1]
    found = 0
    for name, (keyword, values) in instances.items():
        element = elements.get(values[1:23])
        if element is None:
            continue
        found += 1
        assert element.keyword == keyword, f"{element.guid} is {element.keyword}, not {keyword}"
        at = name
        while at in holder and at not in storeys:
            at = holder[at]
        assert element.storey == storeys.get(at), f"{element.guid} is in {element.storey}, not {storeys.get(at)}"
    assert found == len(elements) == 109, f"{found} of {len(elements)} elements are known"


def check_volumes(elements: dict[str, Element], most: float) -> None:
    for guid, volume in VOLUMES.items():
        made = elements[guid].volume()
        assert abs(made - volume) < most, f"the volume of {guid} is {made}, not {volume}"


def check_bytes(program: str, source: Path, folder: Path, first: Path) -> None:
    again = folder / "house.again.ifc"
    run(program, source, again, "--jobs", "4")
    assert first.read_bytes() == again.read_bytes(), "four jobs write other bytes than one"


def check_split(program: str, source: Path, folder: Path, whole: dict[str, Element]) -> None:
    """Parts of a split model hold the same elements as the whole, each once."""
    for split in ("storey", "class"):
        target = folder / f"split_{split}.ifc"
        words = [program, str(source), str(target), "--split", split, "--most-triangles", "16000"]
        done = subprocess.run(words, capture_output=True, text=True, timeout=100)
        assert done.returncode == 1, f"status {done.returncode} of a split model"
        parts = sorted(folder.glob(f"split_{split}.*.ifc"))
        assert len(parts) > 1, "the model wasn't split"
        together: dict[str, Element] = {}
        for part in parts:
            elements = read(part)
            assert sum(len(element.triangles) for element in elements.values()) <= 16000
            assert not together.keys() & elements.keys(), "an element is in two parts"
            together.update(elements)
        assert together == whole, f"the parts by {split} aren't the whole"


def main() -> int:
    program, *paths = given(__doc__, "ifc2grid", "house", "folder")
    source, folder = map(Path, paths)
    folder.mkdir(parents=True, exist_ok=True)
    text = source.read_bytes().decode("latin1")
    whole = run(program, source, folder / "house.ifc")
    coarse = run(program, source, folder / "house.coarse.ifc", "--grid", "1")
    checks: dict[str, Callable[[], None]] = {
        "boxes at 0.1 mm": lambda: check_boxes(whole, 0.052),
        "boxes at 1 mm": lambda: check_boxes(coarse, 0.502),
        "classes and storeys": lambda: check_tree(whole, text),
        "volumes at 0.1 mm": lambda: check_volumes(whole, 0.0002),
        "volumes at 1 mm": lambda: check_volumes(coarse, 0.002),
        "bytes": lambda: check_bytes(program, source, folder, folder / "house.ifc"),
        "split": lambda: check_split(program, source, folder, whole),
    }
    return run_rows("house", checks)


if __name__ == "__main__":
    sys.exit(main())
