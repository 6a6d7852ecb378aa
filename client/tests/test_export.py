"""`topics`, `topics make` and `export bcf`: the files by the schemas and by a second reader."""

from __future__ import annotations

import io
import json
import math
import re
import sys
import time
import zipfile
from collections.abc import Callable
from fractions import Fraction
from pathlib import Path
from typing import Any

import pytest
import requests
import second_reader
from conftest import CLIENT, PROJECTS, Runner, Server
from fakes import Relay, reply
from house import CLOSE, PIPES, PIPES_AFTER, RULES, THROUGH, WALL, WALLS
from lxml import etree
from PIL import Image

SCHEMAS = {
    "bcf.version": "version",
    "project.bcfp": "project",
    "extensions.xml": "extensions",
    "markup.bcf": "markup",
    ".bcfv": "visinfo",
}


def validated(path: Path, version: str) -> int:
    """How many parts the schemas find right; fails on the first that isn't."""
    number = 0
    with zipfile.ZipFile(path) as files:
        for name in files.namelist():
            kind = next((kind for end, kind in SCHEMAS.items() if name.endswith(end)), None)
            if kind is None:
                assert name.endswith(".png"), name
                continue
            schema = CLIENT / "schemas" / f"{kind}{version.replace('.', '')}.xsd"
            etree.XMLSchema(etree.parse(str(schema))).assertValid(
                etree.fromstring(files.read(name))
            )
            number += 1
    return number


def post(server: Server, path: str, body: dict[str, Any], user: str = "eva") -> dict[str, Any]:
    """Makes an object by the server's interface, without the client."""
    url = f"{server.url}/bcf/3.0/projects/{PROJECTS[0]}{path}"
    answer = requests.post(url, json=body, headers={"X-User": user.encode()}, timeout=10)
    assert answer.status_code == 201, answer.text
    made: dict[str, Any] = answer.json()
    return made


def made_by_server(server: Server, version: int, place: int) -> None:
    """A topic of a clash by the server's own request."""
    path = f"/coord/1/projects/{PROJECTS[0]}/versions/{version}/clashes/{place}/topic"
    assert requests.post(server.url + path, timeout=10).status_code == 201


HARD = 'Böser <Text> & "Zeichen" \u0001\ufffe ]]> \U0001f3e0\n2. Zeile'
CLEAN = HARD.replace("\u0001", "").replace("\ufffe", "")


def fill(run: Runner, server: Server) -> None:
    """A house with two clashes, a topic of one of them and two topics made by hand."""
    run.ok("rules", "put", run.file("rules.json", RULES))
    run.ok("push", run.file("walls.ifc", WALLS), run.file("pipes.ifc", PIPES))
    run.ok("topics", "make", "1", "--user", "jörg", "--assigned-to", "TGA", "--priority", "hoch")
    rich = {"title": HARD, "topic_type": "Frage", "topic_status": "Closed", "priority": " "}
    rich |= {"labels": ["a", "b c"], "index": -3, "due_date": "2030-01-02T03:04:05Z"}
    rich |= {"assigned_to": "Eva", "stage": "LPH 5", "description": "Länge: " + "ä" * 500}
    topic = post(server, "/topics", rich)["guid"]
    part = {"ifc_guid": CLOSE.guid, "originating_system": "Revit", "authoring_tool_id": "4711"}
    view = {
        "index": 2,
        "components": {
            "selection": [{"ifc_guid": WALL.guid}, part],
            "coloring": [{"color": "#ff8000", "components": [{"ifc_guid": WALL.guid}]}],
            "visibility": {"default_visibility": False, "exceptions": [part]},
        },
    }
    made = post(server, f"/topics/{topic}/viewpoints", view)["guid"]
    post(server, f"/topics/{topic}/viewpoints", {"components": {}})
    comment = {"comment": HARD, "viewpoint_guid": made}
    post(server, f"/topics/{topic}/comments", comment, "Jörg Maß")
    post(server, f"/topics/{topic}/comments", {"comment": "zwei"})
    post(server, "/topics", {"title": "bare"}, "")


@pytest.mark.parametrize("version", ["2.1", "3.0"])
def test_an_export_by_the_schemas_and_a_second_reader(
    run: Runner, server: Server, version: str
) -> None:
    fill(run, server)
    done = run.ok("export", "bcf", "Büro.bcfzip", "--bcf-version", version, "--json").json
    assert (done["topics"], done["comments"], done["viewpoints"]) == (3, 2, 3)
    path = run.folder / "Büro.bcfzip"
    assert validated(path, version) == 3 + 3 + (3 if version == "3.0" else 2)
    read = second_reader.read(path)
    assert (read["version"], read["project"]) == (version, "Project 1")
    clash, rich, bare = read["topics"]
    assert clash["Title"] == "PIPESEGMENT Rohr 12 / WALL Außenwand (Erdgeschoß)"
    assert f"Clash of {12:022d} and {1:022d}" in clash["Description"]
    assert (clash["type"], clash["status"], clash["Priority"]) == ("Clash", "Open", "hoch")
    assert (clash["AssignedTo"], clash["CreationAuthor"]) == ("TGA", "jörg")
    assert "IFCWALL Außenwand (model walls, Erdgeschoß)" in clash["Description"]
    assert "IFCPIPESEGMENT Rohr 12 (model pipes, Erdgeschoß)" in clash["Description"]
    view = clash["viewpoints"][0]
    assert view["selection"] == [(CLOSE.guid, None, None), (WALL.guid, None, None)]
    assert (view["default"], view["exceptions"], view["coloring"]) == (True, [], [])
    assert (rich["Title"], rich["type"], rich["status"]) == (CLEAN, "Frage", "Closed")
    assert (rich["Priority"], rich["Index"], rich["labels"]) == ("-", "-3", ["a", "b c"])
    assert (rich["DueDate"], rich["AssignedTo"]) == ("2030-01-02T03:04:05Z", "Eva")
    assert (rich["Stage"], rich["Description"]) == ("LPH 5", "Länge: " + "ä" * 500)
    first, second = rich["viewpoints"]
    part = (CLOSE.guid, "Revit", "4711")
    assert first["selection"] == [(WALL.guid, None, None), part] and first["index"] == 2
    assert first["coloring"] == [("FF8000", [(WALL.guid, None, None)])]
    assert (first["default"], first["exceptions"]) == (False, [part])
    assert (second["selection"], second["default"], second["picture"]) == ([], True, None)
    assert [(one["text"], one["author"]) for one in rich["comments"]] == [
        (CLEAN, "Jörg Maß"),
        ("zwei", "eva"),
    ]
    assert [one["viewpoint"] for one in rich["comments"]] == [0, None]
    missing = ("Issue", "Open") if version == "3.0" else ("", "")
    assert (bare["Title"], bare["type"], bare["status"]) == ("bare", *missing)
    assert (bare["CreationAuthor"], bare["comments"], bare["viewpoints"]) == ("anonymous", [], [])


def seen_corners(camera: dict[str, Any], blocks: list[Any]) -> list[tuple[float, float]]:
    """Where a camera sees the corners of blocks, from -1 to 1: by plane geometry, anew."""
    eye, way, up = camera["eye"], camera["direction"], camera["up"]
    right = (
        way[1] * up[2] - way[2] * up[1],
        way[2] * up[0] - way[0] * up[2],
        way[0] * up[1] - way[1] * up[0],
    )
    found = []
    for block in blocks:
        for place in range(8):
            point = [(block.at[i] + block.size[i] * (place >> i & 1)) / 1000 for i in range(3)]
            to = [point[i] - eye[i] for i in range(3)]
            depth = sum(to[i] * way[i] for i in range(3))
            assert depth > 0, "behind the camera"
            half = depth * math.tan(math.radians(camera["field"] / 2))
            across = sum(to[i] * right[i] for i in range(3)) / half / camera.get("aspect", 4 / 3)
            found.append((across, sum(to[i] * up[i] for i in range(3)) / half))
    return found


@pytest.mark.parametrize("version", ["2.1", "3.0"])
def test_cameras_frame_what_is_selected(run: Runner, server: Server, version: str) -> None:
    fill(run, server)
    run.ok("export", "bcf", "a.bcf", "--bcf-version", version)
    topics = second_reader.read(run.folder / "a.bcf")["topics"]
    views = [topics[0]["viewpoints"][0], topics[1]["viewpoints"][0]]
    for view in views:
        camera = view["camera"]
        for vector in (camera["direction"], camera["up"]):
            assert math.isclose(math.hypot(*vector), 1, abs_tol=1e-5)
        assert abs(sum(a * b for a, b in zip(camera["direction"], camera["up"]))) < 1e-5
        assert 45 <= camera["field"] <= 60
        seen = seen_corners(camera, [WALL, CLOSE])
        assert all(abs(x) <= 1 and abs(y) <= 1 for x, y in seen), seen
        # and not from far away: they fill more than half of its width or height
        sizes = [max(one) - min(one) for one in zip(*seen)]
        assert max(sizes) > 1.2, seen
        # it stands north of the wall, where the pipe is, and above
        assert camera["eye"][1] > 0.2 and camera["direction"][2] < 0
    # a viewpoint that selects nothing shows the whole version
    whole = seen_corners(topics[1]["viewpoints"][1]["camera"], [WALL, THROUGH, CLOSE])
    assert all(abs(x) <= 1 and abs(y) <= 1 for x, y in whole)


def counted_by(server: Server, grid: int | None) -> Callable[[bytes, int], bytes | None]:
    """Answers for a version: its boxes in other grid numbers, of which a millimetre has so many.

    None is an older server, which counts millimetres and doesn't say so.
    """

    def rescaled(request: bytes, _: int) -> bytes | None:
        target = request.split(b" ", 2)[1].decode()
        if not re.fullmatch(r".*/versions/(newest|\d+)", target):
            return None
        version = requests.get(f"{server.url}{target}", timeout=30).json()
        own = version.pop("per_mm", 1)
        for model in version["models"]:
            for element in model["elements"]:
                box = [Fraction(number, own) * (grid or 1) for number in element["box"]]
                assert all(number.denominator == 1 for number in box), element
                element["box"] = [int(number) for number in box]
        if grid:
            version["per_mm"] = grid
        return reply(200, json.dumps(version).encode())

    return rescaled


def test_cameras_and_pictures_are_the_same_on_every_grid(run: Runner, server: Server) -> None:
    """What a version's `per_mm` says decides how its boxes are read, and nothing else."""
    fill(run, server)
    made = set()
    for grid in (None, 1, 10, 16):
        with Relay(server.port, counted_by(server, grid)) as relay:
            words = ("export", "bcf", "a.bcf", "--url", relay.url, "--instance", "office")
            assert run.ok(*words, "--json").json["snapshots"] == 2
            assert any("/versions/" in line for line in relay.lines())
        made.add((run.folder / "a.bcf").read_bytes())
    view = second_reader.read(run.folder / "a.bcf")["topics"][0]["viewpoints"][0]
    seen = seen_corners(view["camera"], [WALL, CLOSE])
    assert all(abs(x) <= 1 and abs(y) <= 1 for x, y in seen) and len(made) == 1


def test_boxes_of_tenths() -> None:
    """Half a millimetre is five numbers of the grid of tenths."""
    from yulfrets.bcf_export import Scene

    element = {"box": [-5, 0, 8000000, 123, 10, 8000000], "guid": "x"}
    version: Any = {"models": [{"name": "m", "elements": [element]}], "per_mm": 10}
    wanted = (-0.5, 0, 800000, 12.3, 1, 800000)
    assert Scene.of(version).boxes == {"x": [wanted]} and Scene.of(version).all == [wanted]
    del version["per_mm"]
    assert Scene.of(version).all == [tuple(element["box"])]


@pytest.mark.parametrize(
    ("small", "signs"),
    [
        ((2000, 260, 1000, 2100, 900, 1100), (None, 1, 1)),
        ((2000, -900, 1000, 2100, -60, 1100), (None, -1, 1)),
        ((4100, 0, 1000, 4200, 100, 1100), (1, None, 1)),
        ((-300, 0, 1000, -200, 100, 1100), (-1, None, 1)),
        ((2000, 50, -300, 2100, 150, -200), (None, None, -1)),
        ((2000, 50, 2600, 2100, 150, 2700), (None, None, 1)),
    ],
)
def test_a_camera_stands_on_the_side_of_the_smaller_element(
    small: tuple[float, ...], signs: tuple[int | None, ...]
) -> None:
    """Beside the wall of x 0..4000, y 0..200, z 0..2500; from below only under it."""
    from yulfrets.cameras import camera_for

    wall = (0, 0, 0, 4000, 200, 2500)
    for boxes in ((wall, small), (small, wall)):
        direction = camera_for(boxes).direction  # type: ignore[arg-type]
        for sign, part in zip(signs, direction):
            assert sign is None or part * sign < 0, (small, direction)


def test_snapshots_show_the_elements(run: Runner, server: Server) -> None:
    fill(run, server)
    run.ok("export", "bcf", "a.bcf")
    topics = second_reader.read(run.folder / "a.bcf")["topics"]

    def share(data: bytes, fits: Any) -> float:
        image = Image.open(io.BytesIO(data)).convert("RGB")
        assert image.size == (640, 480)
        pixels = list(image.getdata())
        return sum(map(fits, pixels)) / len(pixels)

    clash = topics[0]["viewpoints"][0]["picture"]
    # the first element is red and the second blue
    assert share(clash, lambda p: p[0] > p[2] + 60) > 0.002
    assert share(clash, lambda p: p[2] > p[0] + 60) > 0.05
    colored = topics[1]["viewpoints"][0]["picture"]
    assert share(colored, lambda p: p[0] > p[1] + 40 > p[2] + 80) > 0.05
    assert run.ok("export", "bcf", "b.bcf", "--no-snapshots", "--json").json["snapshots"] == 0
    assert second_reader.read(run.folder / "b.bcf")["topics"][0]["viewpoints"][0]["picture"] is None


def test_an_export_is_the_same_each_time(run: Runner, server: Server) -> None:
    fill(run, server)
    for name in ("a.bcf", "b.bcf"):
        run.ok("export", "bcf", name)
    assert (run.folder / "a.bcf").read_bytes() == (run.folder / "b.bcf").read_bytes()
    run.ok("export", "bcf", "c.bcf", "--instance", "https://bim.example.org")
    run.ok("export", "bcf", "d.bcf", YULFRETS_INSTANCE="https://bim.example.org")
    first, third, fourth = (
        {one["guid"] for one in second_reader.read(run.folder / name)["topics"]}
        for name in ("a.bcf", "c.bcf", "d.bcf")
    )
    assert not first & third and third == fourth and len(third) == 3


def test_identifiers_differ_after_a_new_start(bare: Runner, program: str) -> None:
    """Topic 1 of a server that was started anew is another topic than the one before it."""
    found = []
    for name in ("a.bcf", "b.bcf"):
        server = Server(program)
        try:
            made = post(server, "/topics", {"title": "one"})
            assert made["server_assigned_id"] == "1"
            bare.ok("export", "bcf", name, "--url", server.url, "--instance", "office")
        finally:
            server.stop()
        found.append(second_reader.read(bare.folder / name)["topics"][0])
        # dates are of whole seconds
        time.sleep(1.1)
    assert found[0]["guid"] != found[1]["guid"]


def test_without_the_packages_that_may_be_absent(
    run: Runner, server: Server, monkeypatch: pytest.MonkeyPatch
) -> None:
    fill(run, server)
    for module in ("yulfrets.snapshots", "yulfrets.commands.export"):
        monkeypatch.setattr(f"{module}.has_pil", lambda: False)
    done = run.ok("export", "bcf", "a.bcf")
    assert "python3-pil" in done.err and "0 snapshots" in done.out
    assert len(second_reader.read(run.folder / "a.bcf")["topics"]) == 3
    run.ok("report", "r.html")
    assert "<img" not in (run.folder / "r.html").read_text("utf-8")
    monkeypatch.setitem(sys.modules, "openpyxl", None)
    done = run("topics", "--xlsx", "t.xlsx")
    assert done.status == 2 and "python3-openpyxl" in done.err


def test_topics_are_listed_and_filtered(run: Runner, server: Server) -> None:
    fill(run, server)
    assert [one["title"] for one in run.ok("topics", "--json").json][2] == "bare"
    assert len(run.ok("topics", "--status", "open", "--json").json) == 1
    assert len(run.ok("topics", "--type", "Frage", "--json").json) == 1
    assert len(run.ok("topics", "--assigned-to", "tga", "--json").json) == 1
    assert run.ok("export", "bcf", "a.bcf", "--type", "Frage", "--json").json["topics"] == 1
    lines = run.ok("topics").out.splitlines()
    assert len(lines) == 5 and lines[-1] == "3 topics" and "2. Zeile" in lines[2]
    run.ok("topics", "--xlsx", "t.xlsx", "--csv", "t.csv")
    assert (run.folder / "t.xlsx").exists() and (run.folder / "t.csv").exists()


def test_topics_are_made_once(run: Runner, server: Server) -> None:
    fill(run, server)
    assert run("topics", "make").status == 2
    assert run("topics", "make", "2").status == 2
    done = run("topics", "make", "--every", "--most", "0", "--json")
    assert done.status == 2 and "1 topic would be made" in done.fault["message"]
    made = run.ok("topics", "make", "--every", "--json").json
    assert (len(made["made"]), made["there"]) == (1, 1)
    assert f"Clash of {11:022d} and {1:022d}" in made["made"][0]["description"]
    # one that the server made itself is seen as well
    run.ok("push", run.file("pipes.ifc", PIPES_AFTER))
    made_by_server(server, 4, 1)
    done = run.ok("topics", "make", "--new", "--json").json
    assert (done["made"], done["there"]) == ([], 1)
    assert run.ok("topics", "make", "--every", "--json").json["made"] == []
    done = run.ok("topics", "make", "--version", "3", "--new", "--json").json
    assert (done["version"], done["made"], done["there"]) == (3, [], 2)


def test_a_file_that_cannot_be_written(run: Runner, server: Server) -> None:
    done = run("export", "bcf", run.folder / "none" / "a.bcf")
    assert done.status == 6 and "none" in done.err
    (run.folder / "folder.bcf").mkdir()
    assert run("export", "bcf", "folder.bcf").status == 6
    assert list(run.folder.glob("*.part")) == []
