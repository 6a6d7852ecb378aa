"""`rules get`, `put` and `check`, and that the check says what the server says."""

from __future__ import annotations

import json
from typing import Any

import pytest
import requests
from conftest import PROJECTS, Runner, Server
from house import PIPES, WALLS

GOOD: dict[str, Any] = {"a": "*", "b": "IFCWALL", "distance": 5}
RULES: list[tuple[Any, str | None]] = [
    ([], None),
    ([GOOD], None),
    ([GOOD | {"distance": 0}, GOOD | {"distance": 1000}], None),
    ([GOOD | {"kind": "ignore", "distance": None}], None),
    ([GOOD | {"kind": None, "storey": None, "level": None, "models": None}], None),
    ([GOOD | {"storey": "same", "models": "other", "level": "ä" * 128}], None),
    ([GOOD | {"note": "passed over"}], None),
    ([GOOD] * 200, None),
    ([GOOD] * 201, "C2"),
    ([GOOD | {"distance": 1001}], "C3"),
    ([GOOD | {"distance": -1}], "C3"),
    ([GOOD | {"distance": 5.0}], "C1"),
    ([GOOD | {"distance": True}], "C1"),
    ([GOOD | {"distance": "5"}], "C1"),
    ([GOOD | {"distance": None}], "C1"),
    ([GOOD | {"kind": "other"}], "C1"),
    ([GOOD | {"kind": "ignore", "distance": 1001}], "C3"),
    ([GOOD | {"kind": "ignore", "distance": "x"}], "C1"),
    ([GOOD | {"kind": "pierce", "distance": None}], None),
    ([GOOD | {"kind": "pierce"}], "C1"),
    ([GOOD | {"kind": "pierce", "distance": 1001}], "C1"),
    ([GOOD | {"a": None}], "C1"),
    ([GOOD | {"a": "IfcWall"}], "C1"),
    ([GOOD | {"a": ""}], "C1"),
    ([GOOD | {"b": "A" * 65}], "C1"),
    ([GOOD | {"storey": "other"}], "C1"),
    ([GOOD | {"models": "different"}], "C1"),
    ([GOOD | {"level": "ä" * 129}], "C1"),
    ([GOOD | {"level": 3}], "C1"),
    ([GOOD, 7], "C1"),
    ([GOOD | {"distance": 1001}, 7], "C1"),
    ([GOOD, GOOD | {"distance": 1001}, GOOD | {"a": None}], "C3"),
    ({"a": 1}, "C1"),
]


def test_the_check_agrees_with_the_server(run: Runner, server: Server) -> None:
    from yulfrets.errors import Refused
    from yulfrets.rules_file import checked_rules

    target = f"{server.url}/coord/1/projects/{PROJECTS[0]}/rules"
    for rules, code in RULES:
        answer = requests.put(target, json={"rules": rules}, timeout=10).json()
        assert answer.get("code") == code, (rules, answer)
        try:
            checked_rules(rules, "x")
            found, place = None, None
        except Refused as fault:
            found, place = fault.code, fault.fields.get("index")
        assert found == code, (rules, found)
        if place is not None and isinstance(rules, list):
            assert place == answer["index"]


def test_put_and_get_are_the_same(run: Runner) -> None:
    rules = [
        {"a": "IFCWALL", "b": "IFCDOOR", "kind": "ignore"},
        {"a": "*", "b": "*", "kind": "clash", "distance": 50, "storey": "same", "level": "EG ä"},
    ]
    path = run.file("rules.json", json.dumps({"rules": rules}))
    assert run.ok("rules", "put", path).out == "version 1: 2 rules set\n"
    assert run.ok("rules", "get").out == run.ok("rules", "get", "--json").out
    assert run.ok("rules", "get").out and json.loads(run.ok("rules", "get").out)["rules"] == rules
    run.ok("rules", "get", "back.json")
    assert run.ok("rules", "put", "back.json", "--json").json["version"] == 2
    assert json.loads(run.ok("rules", "get", "--version", "0").out) == {"rules": []}


def test_a_rule_with_a_fault_is_named(run: Runner) -> None:
    path = run.file("rules.json", json.dumps([GOOD, GOOD | {"distance": 2000}]))
    for command in ("put", "check"):
        done = run("rules", command, path, "--json")
        assert (done.status, done.fault["code"], done.fault["index"]) == (3, "C3", 1)
    done = run("rules", "check", run.file("broken.json", '{"rules": [\n oh'), "--json")
    assert done.status == 3 and done.fault["code"] == "H9" and "line 2" in done.fault["message"]
    assert run("rules", "check", "nowhere.json").status == 6
    assert run.ok("versions", "--json").json["versions"][0]["version"] == 0


@pytest.mark.parametrize("offline", [True, False])
def test_remarks_on_rules_that_meet_nothing(run: Runner, offline: bool) -> None:
    run.ok("push", run.file("walls.ifc", WALLS), run.file("pipes.ifc", PIPES))
    rules = [
        {"a": "IFCWALL", "b": "IFCPIPESEGMENT", "distance": 10, "level": "Erdgeschoß"},
        {"a": "IFCDOOR", "b": "*", "distance": 10},
        {"a": "*", "b": "*", "distance": 10, "level": "Keller", "colour": "red"},
        {"a": "*", "b": "*", "distance": 10},
        {"a": "IFCWALL", "b": "*", "distance": 10},
    ]
    path = run.file("rules.json", json.dumps(rules))
    words = ["--offline"] if offline else []
    found = run.ok("rules", "check", path, "--json", *words).json["remarks"]
    expected = [
        "rule 1: no element is of the class IFCDOOR",
        "rule 2: colour is passed over",
        "rule 2: no storey has the name 'Keller'",
        "rule 4: an earlier rule fits all that it fits",
    ]
    assert found == ([] if offline else expected)
