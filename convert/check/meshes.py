#!/usr/bin/env python3
"""meshes.py MESH2GRID SERVER FOLDER: a box of 1 by 2 by 3 as OBJ, STL, DXF and glTF, and words that are refused."""

from __future__ import annotations

import base64
import json
import struct
import subprocess
import sys
from pathlib import Path

from given import given
from served import answers, boxes_of
from written import Element, read

CORNERS = [(x, y, z) for z in (0, 3) for y in (0, 2) for x in (0, 1)]
QUADS = [(0, 2, 3, 1), (4, 5, 7, 6), (0, 1, 5, 4), (2, 6, 7, 3), (0, 4, 6, 2), (1, 3, 7, 5)]
TRIANGLES = [t for a, b, c, d in QUADS for t in ((a, b, c), (a, c, d))]


def obj() -> bytes:
    lines = ["o box"] + ["v %d %d %d" % corner for corner in CORNERS]
    lines += ["f " + " ".join(str(k + 1) for k in quad) for quad in QUADS]
    return "\n".join(lines + [""]).encode()


def stl() -> bytes:
    lines = ["solid box"]
    for triangle in TRIANGLES:
        lines += ["facet normal 0 0 0", "outer loop"]
        lines += ["vertex %d %d %d" % CORNERS[k] for k in triangle] + ["endloop", "endfacet"]
    return "\n".join(lines + ["endsolid box", ""]).encode()


def dxf() -> bytes:
    rows: list[object] = [0, "SECTION", 2, "ENTITIES"]
    for quad in QUADS:
        rows += [0, "3DFACE", 8, "box"]
        for place, k in enumerate(quad):
            for axis in range(3):
                rows += [10 * (axis + 1) + place, f"{CORNERS[k][axis]}.0"]
    rows += [0, "ENDSEC", 0, "EOF"]
    return ("\n".join(str(row) for row in rows) + "\n").encode()


def gltf() -> bytes:
    points = b"".join(struct.pack("<3f", *corner) for corner in CORNERS)
    places = b"".join(struct.pack("<3H", *triangle) for triangle in TRIANGLES)
    data = base64.b64encode(points + places).decode()
    views = [{"buffer": 0, "byteOffset": 0, "byteLength": len(points)}]
    views.append({"buffer": 0, "byteOffset": len(points), "byteLength": len(places)})
    spots = {"bufferView": 0, "componentType": 5126, "count": 8, "type": "VEC3", "min": [0, 0, 0], "max": [1, 2, 3]}
    counted = {"bufferView": 1, "componentType": 5123, "count": 36, "type": "SCALAR"}
    return json.dumps(
        {
            "asset": {"version": "2.0"},
            "buffers": [{"uri": "data:application/octet-stream;base64," + data, "byteLength": len(points + places)}],
            "bufferViews": views,
            "accessors": [spots, counted],
            "meshes": [{"primitives": [{"attributes": {"POSITION": 0}, "indices": 1, "mode": 4}]}],
            "nodes": [{"name": "box", "mesh": 0}],
            "scenes": [{"nodes": [0]}],
            "scene": 0,
        }
    ).encode()


FORMATS = {"obj": obj, "stl": stl, "dxf": dxf, "gltf": gltf}


def convert(program: str, source: Path, *words: str) -> Element:
    target = source.with_suffix(source.suffix + ".ifc")
    line = [program, str(source), str(target), *words]
    done = subprocess.run(line, capture_output=True, text=True, timeout=60)
    assert done.returncode == 0, f"status {done.returncode}: {done.stderr}"
    (element,) = read(target).values()
    return element


def check_format(program: str, server: str, source: Path) -> None:
    # assimp turns DXF, so that its z comes as y.
    turned = source.suffix == ".dxf"
    words = ("--up", "y" if turned else "z", "--unit", "25.4", "--class", "IFCPIPESEGMENT", "--storey", "O'G")
    element = convert(program, source, *words)
    assert element.box == [0, 0, 0, 25.4, 50.8, 76.2], element.box
    assert (element.keyword, element.storey) == ("IFCPIPESEGMENT", "O''G")
    element = convert(program, source)
    wanted = [0, 0, 0, 1000, 2000, 3000] if turned else [0, -3000, 0, 1000, 0, 2000]
    assert element.box == wanted, element.box
    assert abs(abs(element.volume()) - 6) < 1e-6, element.volume()
    (answer,) = answers(server, [source.with_suffix(source.suffix + ".ifc")])
    body = answer.body
    assert answer.status == 201 and body["elements"] == 1 and body["triangles"] == 12, f"{answer.status} {body}"
    assert list(boxes_of(answer.version).values()) == [wanted], answer.version


def check_words(program: str, folder: Path) -> None:
    source, target = str(folder / "box.obj"), str(folder / "out.ifc")
    refused = [
        (2, ()),
        (2, (source, target, "--unit", "x")),
        (2, (source, target, "--class", "IFCSPACE")),
        (2, ("model.ifc", target)),
        (3, ("missing.obj", target)),
        (4, (source, str(folder / "missing" / "out.ifc"))),
    ]
    for status, words in refused:
        done = subprocess.run([program, *words], capture_output=True, text=True, timeout=60)
        assert done.returncode == status, f"status {done.returncode} of {words}"
        assert done.stderr.count("\n") == 1, done.stderr


def main() -> int:
    program, server, place = given(__doc__, "mesh2grid", "server", "folder")
    folder = Path(place)
    folder.mkdir(parents=True, exist_ok=True)
    failed = 0
    for name, make in FORMATS.items():
        source = folder / f"box.{name}"
        source.write_bytes(make())
        try:
            check_format(program, server, source)
        except AssertionError as error:
            failed += 1
            print(f"FAILED meshes, {name}: {error}")
    try:
        check_words(program, folder)
    except AssertionError as error:
        failed += 1
        print(f"FAILED meshes, words: {error}")
    print(f"meshes: {len(FORMATS) + 1 - failed} passed, {failed} failed")
    return 1 if failed else 0


if __name__ == "__main__":
    sys.exit(main())
