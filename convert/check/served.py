#!/usr/bin/env python3
"""served.py SERVER FOLDER: the server takes every file that was written, with as many elements as the report says.

All are uploaded in one recorded session, and the box of each element is the one that the file has, to the grid number.
The house is federated with its split parts: they have the clashes that the whole has, and no other.
"""

from __future__ import annotations

import json
import re
import subprocess
import sys
from dataclasses import dataclass
from pathlib import Path
from typing import Any, Iterator

from given import given
from written import read

PROJECT = "/coord/1/projects/00000001-0000-8000-8000-000000000000"
RESPONSE = re.compile(rb"HTTP/1\.1 (\d+) [^\r]*\r\n(?:[^\r]*\r\n)*?Content-Length: (\d+)\r\n(?:[^\r]*\r\n)*?\r\n")


@dataclass
class Answer:
    """What the server answers to an upload, and its newest version then."""

    status: int
    body: dict[str, Any]
    version: dict[str, Any]


def responses(output: bytes) -> Iterator[tuple[int, dict[str, Any]]]:
    at = 0
    while response := RESPONSE.match(output, at):
        at = response.end() + int(response[2])
        yield int(response[1]), json.loads(output[response.end() : at])


def answers(server: str, files: list[Path]) -> list[Answer]:
    """What the server answers to an upload of each file, under one name."""
    session = b""
    for path in files:
        body = path.read_bytes()
        head = f"PUT {PROJECT}/models/m HTTP/1.1\r\nHost: h\r\nContent-Length: {len(body)}\r\n\r\n"
        session += head.encode() + body
        session += f"GET {PROJECT}/versions/newest HTTP/1.1\r\nHost: h\r\n\r\n".encode()
    words = [server, "replay", "--at", "1714564800", "--buckets", "0"]
    output = subprocess.run(words, input=session, capture_output=True, timeout=170).stdout
    found = list(responses(output))
    return [Answer(*found[k], found[k + 1][1]) for k in range(0, len(found) - 1, 2)]


def boxes_of(version: dict[str, Any]) -> dict[str, list[float]]:
    """The boxes of the one model's elements in millimetres, of which each has `per_mm` grid numbers."""
    elements = [element for model in version["models"] for element in model["elements"]]
    return {element["guid"]: [number / version["per_mm"] for number in element["box"]] for element in elements}


def report_of(path: Path) -> dict[str, object]:
    said: dict[str, object] = json.loads(path.with_name(path.name.replace(".out.ifc", ".json")).read_text())
    return said


def upload_fault(path: Path, report: dict[str, object], answer: Answer) -> str:
    """What is wrong with an upload of a file; empty where nothing is."""
    body = answer.body
    same = body.get("elements") == report["elements"] and body.get("triangles") == report["triangles"]
    if answer.status != 201 or not same:
        return f"{answer.status} {body}"
    written = {guid: element.box for guid, element in read(path).items()}
    served = boxes_of(answer.version)
    differ = [guid for guid in written.keys() | served.keys() if written.get(guid) != served.get(guid)]
    return f"boxes of {differ[0]}: {written.get(differ[0])} and {served.get(differ[0])}" if differ else ""


def check_uploads(server: str, folder: Path) -> tuple[int, int]:
    files = sorted(folder.glob("cases/*.out.ifc")) + [folder / "house" / "house.ifc"]
    got = answers(server, files)
    failed = 0
    for path, answer in zip(files, got):
        report = json.loads(path.with_suffix(".json").read_text()) if path.name == "house.ifc" else report_of(path)
        reason = upload_fault(path, report, answer)
        if reason:
            failed += 1
            print(f"FAILED served, {path.name}: {reason}")
    if len(got) < len(files):
        failed += len(files) - len(got)
        print(f"FAILED served: {len(got)} answers for {len(files)} files")
    return len(files), failed


def clashes(server: str, folder: Path, models: list[Path]) -> list[tuple[str, str]]:
    rules = folder / "rules.json"
    rules.write_text('{"rules":[{"a":"*","b":"*","distance":2}]}')
    words = [server, "check", "--rules", str(rules)]
    words += [f"m{number}={path}" for number, path in enumerate(models)]
    done = subprocess.run(words, capture_output=True, text=True, timeout=170)
    assert done.returncode == 0, f"status {done.returncode}: {done.stdout}{done.stderr}"
    pairs = []
    for line in done.stdout.splitlines():
        parts = line.split()
        if len(parts) == 5:
            pairs.append((min(parts[1], parts[3]), max(parts[1], parts[3])))
    return sorted(pairs)


def check_split(server: str, folder: Path) -> str:
    """What is wrong with the clashes of the split house; empty where nothing is."""
    house = folder / "house"
    try:
        whole = clashes(server, folder, [house / "house.ifc"])
        parts = clashes(server, folder, sorted(house.glob("split_storey.*.ifc")))
    except AssertionError as error:
        return str(error)
    if len(whole) < 100:
        return f"the house has {len(whole)} clashes at 2 mm"
    return "" if whole == parts else f"{len(parts)} clashes of the parts, {len(whole)} of the whole"


def main() -> int:
    server, place = given(__doc__, "server", "folder")
    folder = Path(place)
    count, failed = check_uploads(server, folder)
    reason = check_split(server, folder)
    if reason:
        failed += 1
        print(f"FAILED served, split: {reason}")
    print(f"served: {count + 1 - failed} passed, {failed} failed")
    return 1 if failed else 0


if __name__ == "__main__":
    sys.exit(main())
