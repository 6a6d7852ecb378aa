"""`import bcf`: round trips, files of other programs, files that are refused."""

from __future__ import annotations

import re
import zipfile
from pathlib import Path
from typing import Any

import pytest
import requests
import second_reader
from conftest import PROJECTS, Runner, Server
from fakes import Relay
from house import WALL
from test_export import fill, post

DATES = ("CreationDate", "ModifiedDate", "ModifiedAuthor")


def comparable(path: Path) -> list[dict[str, Any]]:
    """A file's topics without dates, who changed them last, and identifiers of their parts."""
    topics: list[dict[str, Any]] = second_reader.read(path)["topics"]
    for topic in topics:
        for member in DATES:
            del topic[member]
        for part in topic["comments"]:
            del part["guid"], part["date"], part["modified"]
        for part in topic["viewpoints"]:
            del part["guid"]
    return topics


@pytest.mark.parametrize("version", ["2.1", "3.0"])
def test_a_round_trip(run: Runner, server: Server, version: str) -> None:
    fill(run, server)
    words = ("--bcf-version", version)
    run.ok("export", "bcf", "a.bcf", *words)
    # the same models in the second project, so that cameras and pictures can be the same
    run.ok("push", "walls.ifc", "pipes.ifc", "--project", "2", "--no-wait")
    done = run.ok("import", "bcf", "a.bcf", "--project", "2", "--json").json
    assert (done["made"], done["comments"], done["viewpoints"]) == (3, 2, 3)
    assert done["not_kept"] == {"cameras": 3, "snapshots": 2}
    run.ok("export", "bcf", "b.bcf", "--project", "2", *words)
    before, after = comparable(run.folder / "a.bcf"), comparable(run.folder / "b.bcf")
    assert len(before) == 3 and before[1]["comments"][0]["author"] == "Jörg Maß"
    for topic in (*before, *after):
        assert topic["guid"]
    assert before == after


def test_an_import_again_makes_nothing_twice(run: Runner, server: Server) -> None:
    fill(run, server)
    run.ok("export", "bcf", "a.bcf")
    for project in ("1", "2"):
        run.ok("import", "bcf", "a.bcf", "--project", project)
        again = run.ok("import", "bcf", "a.bcf", "--project", project, "--json").json
        assert (again["made"], again["there"], again["comments"]) == (0, 3, 0)
        again = run.ok("import", "bcf", "a.bcf", "--update", "--project", project, "--json").json
        assert (again["made"], again["updated"], again["there"]) == (0, 0, 3)
        assert (again["comments"], again["viewpoints"]) == (0, 0)
        assert len(run.ok("topics", "--json", "--project", project).json) == 3


def edited(source: Path, target: Path, part: str, change: Any) -> None:
    """A copy of a BCF file with one kind of part changed."""
    with zipfile.ZipFile(source) as old, zipfile.ZipFile(target, "w") as new:
        for name in old.namelist():
            data = old.read(name)
            new.writestr(name, change(data) if name.endswith(part) else data)


def test_an_answer_of_an_engineer_comes_back(run: Runner, server: Server) -> None:
    fill(run, server)
    run.ok("export", "bcf", "out.bcf", "--type", "Clash")
    comment = (
        b'<Comment Guid="11111111-2222-4333-8444-555555555555"><Date>2030-01-01T00:00:00Z</Date>'
        b"<Author>TGA</Author><Comment>verlegt</Comment></Comment>"
    )

    def answer(data: bytes) -> bytes:
        data = data.replace(b'TopicStatus="Open"', b'TopicStatus="Closed"')
        return data.replace(b"<Viewpoints ", comment + b"<Viewpoints ")

    edited(run.folder / "out.bcf", run.folder / "in.bcf", "markup.bcf", answer)
    assert run.ok("import", "bcf", "in.bcf", "--json").json["there"] == 1
    assert run.ok("topics", "--status", "Closed", "--type", "Clash", "--json").json == []
    done = run.ok("import", "bcf", "in.bcf", "--update", "--user", "eva", "--json").json
    assert (done["updated"], done["comments"], done["viewpoints"], done["made"]) == (1, 1, 0, 0)
    topic = run.ok("topics", "--type", "Clash", "--json").json[0]
    assert (topic["topic_status"], topic["modified_author"]) == ("Closed", "eva")
    assert topic["assigned_to"] == "TGA" and "labels" not in topic
    url = f"{server.url}/bcf/3.0/projects/{PROJECTS[0]}/topics/{topic['guid']}/comments"
    comments = requests.get(url, timeout=10).json()
    assert [(one["author"], one["comment"]) for one in comments] == [("TGA", "verlegt")]


TOPIC = "a1b2c3d4-0000-4000-8000-00000000000A"
MARKUP = f"""\ufeff<?xml version="1.0" encoding="utf-8"?>
<Markup xmlns:xsi="http://www.w3.org/2001/XMLSchema-instance">
 <Header><File isExternal="true"><Filename>Haus.ifc</Filename></File></Header>
 <Topic Guid="{TOPIC}" TopicType="Fehler" TopicStatus="Aktiv">
  <ReferenceLink>http://a.example</ReferenceLink>
  <Title>Tür schlägt an</Title><Priority>Normal</Priority><Index>4</Index>
  <Labels>Architektur</Labels><Labels>TGA</Labels>
  <CreationDate>2024-03-01T08:00:00+01:00</CreationDate>
  <CreationAuthor>anna@büro.example</CreationAuthor>
  <DueDate>2031-05-06T07:08:09+02:00</DueDate><Description> </Description>
  <RelatedTopic Guid="{TOPIC}"/>
 </Topic>
 <Comment Guid="b1b2c3d4-0000-4000-8000-000000000001"><Date>2024-03-01T08:00:00+01:00</Date>
  <Author>bernd</Author><Comment></Comment>
  <Viewpoint Guid="C1B2C3D4-0000-4000-8000-000000000001"/></Comment>
 <Viewpoints Guid="c1b2c3d4-0000-4000-8000-000000000001"><Viewpoint>viewpoint.bcfv</Viewpoint>
  <Snapshot>snapshot.png</Snapshot></Viewpoints>
 <Viewpoints Guid="c1b2c3d4-0000-4000-8000-000000000002">
  <Viewpoint>lost.bcfv</Viewpoint></Viewpoints>
</Markup>"""
POINT = "<X>0</X><Y>0</Y><Z>1</Z>"
VIEW = f"""<VisualizationInfo Guid="c1b2c3d4-0000-4000-8000-000000000001"><Components>
 <ViewSetupHints SpacesVisible="false"/>
 <Selection><Component IfcGuid="{WALL.guid}"/><Component IfcGuid="short"/>
  <Component><OriginatingSystem>Revit</OriginatingSystem>
   <AuthoringToolId>7</AuthoringToolId></Component>
 </Selection>
 <Visibility DefaultVisibility="true"/>
 <Coloring><Color Color="80FF0000"><Component IfcGuid="{WALL.guid}"/></Color></Coloring>
 </Components>
 <OrthogonalCamera><CameraViewPoint>{POINT}</CameraViewPoint>
  <CameraDirection>{POINT}</CameraDirection><CameraUpVector>{POINT}</CameraUpVector>
  <ViewToWorldScale>1</ViewToWorldScale></OrthogonalCamera>
 <ClippingPlanes><ClippingPlane><Location>{POINT}</Location><Direction>{POINT}</Direction>
 </ClippingPlane></ClippingPlanes></VisualizationInfo>"""
VERSION = '<Version VersionId="2.1"><DetailedVersion>2.1</DetailedVersion></Version>'


def foreign(path: Path, **parts: str | bytes | None) -> Path:
    """A file as another program writes it, with backslashes; parts may be replaced."""
    found: dict[str, str | bytes | None] = {
        "bcf.version": VERSION,
        f"{TOPIC}\\markup.bcf": MARKUP,
        f"{TOPIC}\\viewpoint.bcfv": VIEW,
        f"{TOPIC}\\snapshot.png": b"\x89PNG",
    }
    with zipfile.ZipFile(path, "w") as files:
        for name, data in (found | parts).items():
            if data is not None:
                info = zipfile.ZipInfo(name)
                info.filename = name
                files.writestr(info, data)
    return path


def test_a_file_of_another_program(run: Runner, server: Server) -> None:
    path = foreign(run.folder / "foreign.bcfzip")
    dry = run.ok("import", "bcf", path, "--dry-run", "--json").json
    assert (dry["topics"], dry["comments"], dry["viewpoints"]) == (1, 1, 1)
    assert run.ok("topics", "--json").json == []
    done = run.ok("import", "bcf", path, "--json").json
    assert done["not_kept"] == {
        "cameras": 1,
        "clipping planes": 1,
        "identifiers that aren't IFC's": 1,
        "links": 1,
        "lists of files": 1,
        "related topics": 1,
        "setup hints": 1,
        "snapshots": 1,
        "viewpoints without a file": 1,
    }
    topic = run.ok("topics", "--json").json[0]
    assert topic["labels"] == ["Architektur", "TGA", f"bcf-guid:{TOPIC.lower()}"]
    kept = ("title", "topic_type", "topic_status", "priority", "index", "due_date")
    assert [topic[name] for name in kept] == [
        "Tür schlägt an",
        "Fehler",
        "Aktiv",
        "Normal",
        4,
        "2031-05-06T05:08:09Z",
    ]
    assert topic["creation_author"] == "anna@büro.example" and "description" not in topic
    base = f"{server.url}/bcf/3.0/projects/{PROJECTS[0]}/topics/{topic['guid']}"
    view = requests.get(f"{base}/viewpoints", timeout=10).json()[0]["guid"]
    comment = requests.get(f"{base}/comments", timeout=10).json()[0]
    assert (comment["author"], comment["viewpoint_guid"]) == ("bernd", view)
    parts = {
        part: requests.get(f"{base}/viewpoints/{view}/{part}", timeout=10).json()[part]
        for part in ("selection", "coloring", "visibility")
    }
    assert parts["selection"] == [
        {"ifc_guid": WALL.guid},
        {"authoring_tool_id": "7", "originating_system": "Revit"},
    ]
    assert parts["coloring"] == [{"color": "80FF0000", "components": [{"ifc_guid": WALL.guid}]}]
    assert parts["visibility"] == {"default_visibility": True, "exceptions": []}
    # and out again under the identifier that the other program knows
    run.ok("export", "bcf", "back.bcf")
    back = second_reader.read(run.folder / "back.bcf")["topics"][0]
    assert (back["guid"], back["labels"]) == (TOPIC.lower(), ["Architektur", "TGA"])
    assert "not kept: cameras: 1" in run("import", "bcf", path).err


def test_a_file_in_utf_16_without_an_identifier(run: Runner) -> None:
    markup = MARKUP.lstrip("\ufeff").replace('"utf-8"', '"utf-16"')
    markup = markup.replace(f'<Topic Guid="{TOPIC}"', '<Topic Guid="number 7"')
    parts: dict[str, Any] = {f"{TOPIC}\\markup.bcf": markup.encode("utf-16")}
    done = run.ok("import", "bcf", foreign(run.folder / "a.bcf", **parts), "--json").json
    assert (done["made"], done["comments"], done["not_kept"]["identifiers"]) == (1, 1, 1)
    topic = run.ok("topics", "--json").json[0]
    assert (topic["title"], topic["labels"]) == ("Tür schlägt an", ["Architektur", "TGA"])


def test_who_is_the_author(run: Runner) -> None:
    path = foreign(run.folder / "foreign.bcfzip")
    done = run.ok("import", "bcf", path, "--own-name", "--user", "eva", "--json").json
    assert run.ok("topics", "--json").json[0]["creation_author"] == "eva"
    assert done["not_kept"]["authors"] == 2


@pytest.mark.parametrize(
    ("parts", "words"),
    [
        ({"bcf.version": None}, "bcf.version is missing"),
        ({"bcf.version": VERSION.replace('Id="2.1"', 'Id="2.0"')}, "BCF 2.0 isn't read"),
        ({f"{TOPIC}\\markup.bcf": MARKUP[:-20]}, "is no XML"),
        (
            {f"{TOPIC}\\markup.bcf": '<!DOCTYPE a [<!ENTITY x "y">]><Markup>&x;</Markup>'},
            "declares a document type",
        ),
        (
            {f"{TOPIC}\\markup.bcf": '<!DOCTYPE a [<!ENTITY x "y">]><Markup/>'.encode("utf-16")},
            "declares a document type",
        ),
        ({f"{TOPIC}\\viewpoint.bcfv": b" " * (33 * 2**20)}, "at most 33,554,432"),
    ],
)
def test_a_file_that_is_refused(run: Runner, parts: dict[str, Any], words: str) -> None:
    done = run("import", "bcf", foreign(run.folder / "foreign.bcfzip", **parts))
    assert done.status == 3 and words in done.err, done
    assert len(done.err.splitlines()) == 2
    assert run.ok("topics", "--json").json == []


def test_what_is_no_bcf_file(run: Runner) -> None:
    assert run("import", "bcf", run.file("a.bcf", "hello")).status == 3
    assert run("import", "bcf", "nowhere.bcf").status == 6
    path = foreign(run.folder / "whole.bcf")
    cut = run.folder / "cut.bcf"
    cut.write_bytes(path.read_bytes()[:-100])
    assert run("import", "bcf", cut).status == 3


def test_what_is_too_long_is_cut_and_counted(run: Runner) -> None:
    labels = "".join(f"<Labels>{number}</Labels>" for number in range(25))
    markup = re.sub("<Labels>.*</Labels>", labels, MARKUP)
    markup = markup.replace("Tür schlägt an", "ä" * 600).replace(
        "<Comment></Comment>", f"<Comment>{'x' * 9000}</Comment>"
    )
    view = VIEW.replace(
        '<Component IfcGuid="short"/>', f'<Component IfcGuid="{WALL.guid}"/>' * 1001
    )
    parts = {f"{TOPIC}\\markup.bcf": markup, f"{TOPIC}\\viewpoint.bcfv": view}
    done = run.ok("import", "bcf", foreign(run.folder / "a.bcf", **parts), "--json").json
    not_kept = done["not_kept"]
    assert not_kept["ends of long texts"] == 2 and not_kept["labels"] == 5
    # 1,003 components are selected and one is colored, and the server takes 1,000
    assert (not_kept["identifiers"], not_kept["components"]) == (1, 4)
    topic = run.ok("topics", "--json").json[0]
    assert topic["title"] == "ä" * 512 and topic["labels"] == [str(n) for n in range(20)]


def test_a_server_that_stops_in_an_import(run: Runner, server: Server) -> None:
    fill(run, server)
    run.ok("export", "bcf", "a.bcf")

    def cut_the_second(request: bytes, number: int) -> bytes | None:
        second = request.startswith(b"POST") and b"/topics HTTP" in request and b"Frage" in request
        return b"" if second else None

    words = ("import", "bcf", "a.bcf", "--project", "2", "--json")
    with Relay(server.port, cut_the_second) as relay:
        done = run(*words, "--url", relay.url, "--instance", server.url)
        assert done.status == 5 and done.fault["imported"]["made"] == 1
    again = run.ok(*words).json
    assert (again["made"], again["there"]) == (2, 1)
    assert len(run.ok("topics", "--project", "2", "--json").json) == 3


def test_an_identifier_of_a_topic_is_kept_in_a_label(run: Runner, server: Server) -> None:
    guid = "12345678-1234-4123-8123-123456789abc"
    post(server, "/topics", {"title": "t", "labels": ["x", f"bcf-guid:{guid}"]})
    post(server, "/topics", {"title": "u", "labels": ["bcf-guid:nonsense"]})
    run.ok("export", "bcf", "a.bcf")
    first, second = second_reader.read(run.folder / "a.bcf")["topics"]
    assert (first["guid"], first["labels"]) == (guid, ["x"])
    assert second["guid"] != guid and second["labels"] == []
