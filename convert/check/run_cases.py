#!/usr/bin/env python3
"""run_cases.py IFC2GRID FOLDER: converts the made files and compares volumes and boxes with hand formulas."""

from __future__ import annotations

import json
import subprocess
import sys
from pathlib import Path

from cases import CASES, Case
from given import given
from surfaces import SURFACES
from written import read


def failure(case: Case, program: str, folder: Path) -> str:
    """What is wrong with a case; empty where nothing is."""
    source, target = folder / f"{case.name}.ifc", folder / f"{case.name}.out.ifc"
    report = folder / f"{case.name}.json"
    source.write_text(case.text)
    target.unlink(missing_ok=True)
    words = [program, str(source), str(target), "--report", str(report)]
    done = subprocess.run(words, capture_output=True, text=True, timeout=60)
    if done.returncode != case.status:
        return f"status {done.returncode}, not {case.status}: {done.stdout.strip()} {done.stderr.strip()}"
    if case.volume is None:
        return "a file was written" if target.exists() else ""
    elements = list(read(target).values())
    if len(elements) != 1 or json.loads(report.read_text())["elements"] != 1:
        return f"{len(elements)} elements"
    element = elements[0]
    if element.keyword != case.keyword or element.storey != "EG":
        return f"{element.keyword} in {element.storey}"
    volume = element.volume()
    if abs(volume - case.volume) > case.off * case.volume:
        return f"volume {volume:.6f}, not {case.volume:.6f}"
    if case.box and any(abs(a - b) > case.box_off for a, b in zip(element.box, case.box)):
        return f"box {element.box}, not {case.box}"
    return ""


def main() -> int:
    program, place = given(__doc__, "ifc2grid", "folder")
    folder = Path(place)
    folder.mkdir(parents=True, exist_ok=True)
    failed = 0
    made = [make() for make in CASES + SURFACES]
    for case in made:
        reason = failure(case, program, folder)
        if reason:
            failed += 1
            print(f"FAILED case {case.name}: {reason}")
    print(f"cases: {len(made) - failed} passed, {failed} failed")
    return 1 if failed else 0


if __name__ == "__main__":
    sys.exit(main())
