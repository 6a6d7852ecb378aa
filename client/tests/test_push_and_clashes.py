"""`push`, `clashes`, `versions`, `projects` and `remove` over the server."""

from __future__ import annotations

import csv
import io
import stat
from pathlib import Path

import openpyxl
import pytest
from conftest import PROJECTS, Runner
from house import PIPES, PIPES_AFTER, RULES, WALLS, pairs
from models import Block, model


def put_house(run: Runner) -> None:
    """The rules, the wall and the pipes: versions 1, 2 and 3."""
    run.ok("rules", "put", run.file("rules.json", RULES))
    run.ok("push", run.file("walls.ifc", WALLS), run.file("pipes.ifc", PIPES))


def test_several_models_in_one_push(run: Runner) -> None:
    run.ok("rules", "put", run.file("rules.json", RULES))
    walls, pipes = run.file("walls.ifc", WALLS), run.file("pipes.ifc", PIPES)
    done = run.ok("push", walls, pipes, "--json").json
    assert [one["model"] for one in done["pushed"]] == ["walls", "pipes"]
    assert [one["version"] for one in done["pushed"]] == [2, 3]
    assert [one["elements"] for one in done["pushed"]] == [1, 3]
    assert [one["triangles"] for one in done["pushed"]] == [12, 36]
    assert (done["base"], done["version"], done["total"]) == (1, 3, 2)
    assert pairs(done["new"]) == [("pipes 11", "walls 1"), ("pipes 12", "walls 1")]
    assert done["gone"] == []


def test_new_and_gone_of_a_push(run: Runner) -> None:
    put_house(run)
    run.file("pipes.ifc", PIPES_AFTER)
    done = run.ok("push", "pipes.ifc", "--json").json
    assert pairs(done["new"]) == [("pipes 13", "walls 1")]
    assert pairs(done["gone"]) == [("pipes 12", "walls 1")]
    assert done["gone"][0]["a"]["name"] == "Rohr 12"
    assert done["total"] == 2
    done = run.ok("clashes", "--since", "3", "--json").json
    assert (pairs(done["clashes"]), pairs(done["gone"])) == (
        [("pipes 13", "walls 1")],
        [("pipes 12", "walls 1")],
    )


def test_a_push_in_words(run: Runner) -> None:
    put_house(run)
    run.file("pipes.ifc", PIPES_AFTER)
    lines = run.ok("push", "pipes.ifc").out.splitlines()
    assert lines[0] == "version 4: pipes, 2 elements, 24 triangles"
    assert lines[1] == "clashes of version 4: 2, compared with version 3:"
    assert lines[2] == "new: 1" and "=Rohr 13 (1. OG)" in lines[3] and "Außenwand" in lines[3]
    assert lines[4] == "gone: 1" and "Rohr 12 (Erdgeschoß)" in lines[5]
    assert run.ok("push", "pipes.ifc", "--quiet").out == ""


def test_status_of_new_clashes(run: Runner) -> None:
    run.ok("rules", "put", run.file("rules.json", RULES))
    assert run("push", run.file("walls.ifc", WALLS), "--fail-if-new").status == 0
    assert run("push", run.file("pipes.ifc", PIPES), "--fail-if-new").status == 9
    assert run("push", "pipes.ifc", "--fail-if-new").status == 0
    assert run("clashes", "--new", "--fail-if-new").status == 0
    assert run("clashes", "--since", "2", "--fail-if-new").status == 9


def test_a_refused_file_names_line_and_element(run: Runner) -> None:
    block = Block(77, (0, 0.25, 0), (100, 100, 100), name="Träger")
    path = run.file("off.ifc", model([Block(5, (0, 0, 0), (9, 9, 9)), block]))
    line = 1 + path.read_text("utf-8").splitlines().index(
        next(one for one in path.read_text("utf-8").splitlines() if one.startswith("#20="))
    )
    done = run("push", path, "--convert", "never", "--json")
    assert done.status == 3 and done.out == ""
    assert (done.fault["code"], done.fault["id"], done.fault["line"]) == ("U9", 20, line)
    assert done.fault["element"] == f"#24 IFCPIPESEGMENT {77:022d} 'Träger'"
    assert "--grid snap" in done.fault["hint"]
    words = run("push", path, "--convert", "never").err.splitlines()
    assert f"U9 OffGrid, line {line}" in words[0] and "Träger" in words[0] and len(words) == 3
    assert run.ok("push", path, "--grid", "snap", "--json").json["pushed"][0]["elements"] == 2


def test_a_broken_file_names_its_line(run: Runner) -> None:
    text = WALLS.replace("#2=IFCUNITASSIGNMENT", "#2=?IFCUNITASSIGNMENT")
    done = run("push", run.file("broken.ifc", text), "--json")
    assert (done.status, done.fault["code"], done.fault["line"]) == (3, "U2", 9)
    assert done.fault["text"].startswith("#2=?IFCUNITASSIGNMENT")
    assert run("push", run.file("empty.ifc", ""), "--json").fault["code"] == "U1"


def test_what_was_pushed_before_a_refusal(run: Runner) -> None:
    run.file("walls.ifc", WALLS)
    done = run("push", "walls.ifc", run.file("bad.ifc", "nothing"), "--json")
    assert done.status == 3 and done.fault["code"] == "U1"
    assert [one["model"] for one in done.fault["pushed"]] == ["walls"]
    assert run.ok("versions", "--json").json["versions"][0]["models"] == {"walls": 1}


def stand_in(run: Runner, body: str) -> Path:
    """A small program in place of the converter."""
    path = run.file("ifc2grid", "#!/bin/sh\n" + body)
    path.chmod(path.stat().st_mode | stat.S_IXUSR)
    return path


REPORT = (
    '{"elements": 1, "left_out": [{"instance": 7, "class": "IFCSLAB", "guid": "3x", "at": 9,'
    ' "reason": "no body"}], "partly": [], "in_doubt": [], "doubts": ["far away"]}'
)


def test_a_file_of_another_schema_is_converted(run: Runner) -> None:
    run.file("good.ifc", WALLS)
    program = stand_in(
        run,
        'test "$3" = --report && test "$5" = --origin-file || exit 2\n'
        'grep -q IFC2X3 "$1" || exit 3\n'
        f'cp {run.folder}/good.ifc "$2"\n'
        f"echo '{REPORT}' >\"$4\"; exit 1\n",
    )
    old = run.file("old.ifc", model([], "IFC2X3"))
    words = ("push", old, "--converter", program, "--origin-file", "o.txt")
    done = run(*words, "--json")
    assert done.status == 8, done
    pushed = done.json["pushed"][0]
    assert (pushed["converted"], pushed["whole"], pushed["elements"]) == (True, False, 1)
    assert pushed["left_out"] == ["left out: IFCSLAB 3x: no body", "in doubt: far away"]
    assert pushed["model"] == "old"
    assert "IFCSLAB" in run(*words).err
    # a file of the profile isn't converted, and without the converter nothing is
    assert (
        run.ok("push", "good.ifc", "--converter", program, "--json").json["pushed"][0]["converted"]
        is False
    )
    done = run("push", old, "--convert", "never", "--json")
    assert (done.status, done.fault["code"]) == (3, "U4")


def test_a_broken_file_is_not_converted(run: Runner) -> None:
    run.file("good.ifc", WALLS)
    program = stand_in(run, f'touch {run.folder}/ran; cp {run.folder}/good.ifc "$2"\n')
    done = run("push", run.file("bad.ifc", "nothing"), "--converter", program, "--json")
    assert (done.status, done.fault["code"]) == (3, "U1")
    assert not (run.folder / "ran").exists()
    # where it is asked for each file is converted
    words = ("push", "good.ifc", "--converter", program, "--convert", "always", "--json")
    done = run.ok(*words)
    assert done.json["pushed"][0]["converted"] is True and "as it is" not in done.err
    assert (run.folder / "ran").exists()
    # where the converter sees no reason for it, that is said
    for reasons, is_said in (("[]", True), ('["its schema is IFC2X3"]', False)):
        report = f'{{"why_not_as_it_is": {reasons}}}'
        stand_in(run, f'cp {run.folder}/good.ifc "$2"; echo \'{report}\' >"$4"\n')
        said = run.ok("push", "good.ifc", "--converter", program, "--convert", "always").err
        assert ("good.ifc: the server may take it as it is" in said) is is_said


def test_a_model_that_is_converted_into_several(run: Runner) -> None:
    run.file("one.ifc", WALLS)
    run.file("two.ifc", PIPES)
    old = run.file("old.ifc", model([], "IFC2X3"))
    parts = 'cp one.ifc "${2%.ifc}.2.ifc"; cp two.ifc "${2%.ifc}.10.ifc"\n'
    program = stand_in(run, parts)
    done = run.ok("push", old, "--converter", program, "--json").json
    assert [(one["model"], one["elements"]) for one in done["pushed"]] == [
        ("old.2", 1),
        ("old.10", 3),
    ]
    # what an earlier push left under another name is named
    run.ok("push", "old=one.ifc", "other=one.ifc", "--no-wait")
    err = run.ok("push", old, "--converter", program).err
    assert "still has old: yulfrets remove old" in err and "other" not in err
    # a part that is refused is named, and what came before it
    run.file("two.ifc", "nothing")
    done = run("push", old, "--converter", program, "--json")
    assert (done.status, done.fault["code"]) == (3, "U1")
    assert [one["model"] for one in done.fault["pushed"]] == ["old.2"]


def test_a_converter_that_fails(run: Runner) -> None:
    old = run.file("old.ifc", model([], "IFC2X3"))
    unreadable = stand_in(run, "echo 'line 7: no Part 21' >&2; exit 3\n")
    done = run("push", old, "--converter", unreadable, "--json")
    assert done.status == 3 and done.fault["converter_status"] == 3
    assert "line 7: no Part 21" in done.fault["message"]
    lazy = stand_in(run, "exit 0\n")
    assert "wrote no file" in run("push", old, "--converter", lazy, "--json").fault["message"]
    assert run("push", old, "--converter", run.folder / "nowhere", "--json").status == 2
    assert run.ok("versions", "--json").json["versions"][0]["version"] == 0


def test_clashes_as_rows(run: Runner) -> None:
    put_house(run)
    lines = run.ok("clashes").out.splitlines()
    assert lines[0].split("\t")[:4] == ["place", "rule", "distance", "a model"]
    row = ["0", "0", "50", "pipes", "IFCPIPESEGMENT", "Rohr 11", "Erdgeschoß", f"{11:022d}"]
    row += ["walls", "IFCWALL", "Außenwand", "Erdgeschoß", f"{1:022d}"]
    assert lines[1].split("\t") == row
    assert lines[-1] == "version 3: 2 clashes" and len(lines) == 4
    out = run.ok("clashes", "--csv", "-", "--separator", ";").out
    assert list(csv.reader(io.StringIO(out), delimiter=";"))[1] == row
    run.ok("clashes", "--csv", "c.csv", "--xlsx", "c.xlsx")
    assert (run.folder / "c.csv").read_bytes().startswith(b"\xef\xbb\xbfplace,")
    sheet = openpyxl.load_workbook(run.folder / "c.xlsx").active
    found = list(sheet.iter_rows(values_only=True))
    assert [str(cell) for cell in found[1]] == row and len(found) == 3
    assert [type(cell) for cell in found[1][:3]] == [int, int, int]


def test_clashes_come_in_pages(run: Runner, monkeypatch: pytest.MonkeyPatch) -> None:
    import yulfrets.api

    put_house(run)
    monkeypatch.setattr(yulfrets.api, "PAGE", 1)
    found = run.ok("clashes", "--json").json
    assert pairs(found["clashes"]) == [("pipes 11", "walls 1"), ("pipes 12", "walls 1")]


def test_the_rule_does_not_count(run: Runner) -> None:
    """The same two elements are the same clash when another rule finds them."""
    put_house(run)
    rules = '[{"a": "IFCDOOR", "b": "*", "distance": 9}, {"a": "*", "b": "*", "distance": 50}]'
    run.ok("rules", "put", run.file("rules.json", rules))
    found = run.ok("clashes", "--new", "--json").json
    assert (found["version"], found["total"]) == (4, 2)
    assert (found["clashes"], found["gone"]) == ([], [])
    assert [one["rule"] for one in run.ok("clashes", "--json").json["clashes"]] == [1, 1]


def test_clashes_in_groups(run: Runner) -> None:
    put_house(run)
    run.ok("push", run.file("pipes.ifc", PIPES_AFTER))

    def groups(by: str) -> list[tuple[str, int]]:
        done = run.ok("clashes", "--by", by, "--json").json
        return [(one[by], one["count"]) for one in done["groups"]]

    assert groups("class") == [("IFCPIPESEGMENT / IFCWALL", 2)]
    assert groups("storey") == [("1. OG / Erdgeschoß", 1), ("Erdgeschoß", 1)]
    assert groups("rule") == [("0: * and *, 50 mm", 2)]
    assert run.ok("clashes", "--by", "storey", "--new").out.splitlines()[1:] == [
        "1. OG / Erdgeschoß\t1",
        "version 4: 2 clashes, 1 new and 1 gone since version 3",
    ]


def test_a_text_of_a_file_is_no_formula(run: Runner) -> None:
    put_house(run)
    run.ok("push", run.file("pipes.ifc", PIPES_AFTER))
    run.ok("clashes", "--csv", "c.csv", "--xlsx", "c.xlsx")
    with open(run.folder / "c.csv", encoding="utf-8-sig", newline="") as file:
        assert [row[5] for row in csv.reader(file)][2] == "'=Rohr 13"
    cell = openpyxl.load_workbook(run.folder / "c.xlsx").active["F3"]
    assert (cell.value, cell.data_type) == ("=Rohr 13", "s")


def test_versions(run: Runner) -> None:
    put_house(run)
    run.ok("remove", "walls")
    run.ok("push", "pipes.ifc")
    found = run.ok("versions", "--json").json["versions"]
    assert [one["version"] for one in found] == [5, 4, 3, 2, 1, 0]
    assert [one["clashes"] for one in found] == [0, 0, 2, 0, 0, 0]
    assert [one["elements"] for one in found] == [3, 3, 4, 1, 0, 0]
    assert [one["changed"] for one in found[:5]] == [
        {"put": [], "removed": [], "rules": False},
        {"put": [], "removed": ["walls"], "rules": False},
        {"put": ["pipes"], "removed": [], "rules": False},
        {"put": ["walls"], "removed": [], "rules": False},
        {"put": [], "removed": [], "rules": True},
    ]
    assert "removed walls" in run.ok("versions", "--most", "2").out
    done = run("remove", "walls", "--json")
    assert (done.status, done.fault["code"]) == (3, "K2")


def test_sixteen_versions_are_kept(run: Runner) -> None:
    run.file("walls.ifc", WALLS)
    words = [f"m{number}=walls.ifc" for number in range(17)]
    run.ok("push", *words)
    found = run.ok("versions", "--json").json["versions"]
    assert [one["version"] for one in found] == list(range(17, 1, -1))
    assert found[-1]["changed"] is None
    done = run("clashes", "--since", "1", "--json")
    assert done.status == 2 and "isn't kept" in done.fault["message"]
    done = run("clashes", "--version", "18", "--json")
    assert (done.status, done.fault["code"]) == (3, "K3")


def test_a_project_by_name_number_and_identifier(run: Runner) -> None:
    assert [one["name"] for one in run.ok("projects", "--json").json] == ["Project 1", "Project 2"]
    run.ok("push", run.file("walls.ifc", WALLS), "--project", "2")
    for word in ("2", "Project 2", "project 2", PROJECTS[1]):
        found = run.ok("versions", "--json", YULFRETS_PROJECT=word).json
        assert (found["project"], found["versions"][0]["version"]) == (PROJECTS[1], 1)
    assert run.ok("versions", "--json").json["versions"][0]["version"] == 0
    done = run("versions", "--project", "Haus", "--json")
    assert done.status == 2 and "1 Project 1, 2 Project 2" in done.fault["hint"]


def test_too_large_a_file_isn_t_sent(run: Runner) -> None:
    path = run.folder / "large.ifc"
    with path.open("wb") as file:
        file.truncate(33_554_433)
    done = run("push", path, "--json")
    assert (done.status, done.fault["code"], done.fault["what"]) == (3, "U19", "bytes")
    assert "33,554,433" in done.fault["message"]


def test_words_that_do_not_go_together(run: Runner) -> None:
    run.file("a.ifc", WALLS)
    assert run("push", "a.ifc", "b.ifc").status == 6
    assert run("push", run.folder).status == 6
    assert run("push", "a.ifc", "./a.ifc").status == 2
    assert run("push", "x=a.ifc", "y=a.ifc", "--name", "z").status == 2
    assert run("push", "a.ifc", "--name", "..").status == 2
    assert run("push").status == 2
    assert run("clashes", "--version", "-1").status == 2
    assert run("clashes", "--csv", "c.csv", "--separator", "::").status == 2
    assert run("clashes", "--csv", run.folder / "none" / "c.csv").status == 6
    assert run("clashes", "--url", "bim.example.org").status == 2
    assert run("clashes", "--user", "x" * 129).status == 2
    assert (
        run("clashes", "--url", "http://bim.invalid", "--user", "a", YULFRETS_PASSWORD="b").status
        == 2
    )
    assert run.ok("versions", "--json").json["versions"][0]["version"] == 0
