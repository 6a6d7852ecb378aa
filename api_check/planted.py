"""Plants faults in the document, in docs/API.md and in responses, and looks whether the checks see each.

    python3 -m api_check.planted PROGRAM
"""

from __future__ import annotations

import argparse
import copy
import itertools
import re
import sys
from collections.abc import Callable, Iterator
from dataclasses import dataclass, replace
from typing import Any

from . import agreement, examples, standard
from .altering_proxy import Alter, AlteringProxy
from .directed import Asked, Directed, unexpected
from .document import Document
from .drawn import check_drawn
from .judge import Judge
from .places import API_MD, DOCUMENT
from .report import Report
from .scene import NotReady, Scene
from .server import Server
from .wire import Client, CutOff, Reply

DRAWN = 400
SEED = 7
SOME = ("getProject", "createTopic", "getVersion", "listClashes")
Tree = dict[str, Any]
Change = Callable[[Tree], object]


@dataclass(frozen=True)
class Plant:
    """A fault in the document, and the check that has to see it."""

    name: str
    change: Change
    check: str


PROJECT = "/bcf/3.0/projects/{project_id}"
TOPICS = f"{PROJECT}/topics"
CLASHES = "/coord/1/projects/{project_id}/versions/{version}/clashes"


def _schemas(tree: Tree) -> Tree:
    found: Tree = tree["components"]["schemas"]
    return found


def _topic_example(tree: Tree) -> Tree:
    examples_: Tree = tree["paths"][TOPICS]["post"]["responses"]["201"]["content"][
        "application/json"
    ]
    found: Tree = examples_["examples"]["ok"]
    return found


def _in_the_form() -> list[Plant]:
    """Faults of the document alone."""
    return [
        Plant("a word that OpenAPI hasn't", lambda t: t["info"].update(titel="x"), "standard"),
        Plant(
            "a type that JSON Schema hasn't",
            lambda t: _schemas(t)["Project"].update(type="objekt"),
            "json schema",
        ),
        Plant("a schema that is gone", lambda t: _schemas(t).pop("Project"), "references"),
        Plant(
            "an operationId twice",
            lambda t: t["paths"][TOPICS]["get"].update(operationId="createTopic"),
            "operations",
        ),
        Plant(
            "an example that differs by one byte",
            lambda t: _topic_example(t)["value"].update(title="Pope"),
            "examples",
        ),
        Plant(
            "an example of another request",
            lambda t: _topic_example(t).update({"x-request": 2}),
            "examples",
        ),
    ]


def _beside_api_md() -> list[Plant]:
    """Faults of the document by which it differs from docs/API.md."""
    return [
        Plant("a route less", lambda t: t["paths"].pop(CLASHES), "agreement"),
        Plant("a method less", lambda t: t["paths"][TOPICS].pop("post"), "agreement"),
        Plant("a code less", lambda t: _schemas(t)["ErrorCode"]["enum"].remove("K9"), "agreement"),
        Plant(
            "a member less",
            lambda t: _schemas(t)["RuleBody"]["properties"].pop("level"),
            "agreement",
        ),
        Plant(
            "a member of an error less",
            lambda t: _schemas(t)["K3NoVersion"]["properties"].pop("newest"),
            "agreement",
        ),
        Plant(
            "another bound",
            lambda t: _schemas(t)["TopicBody"]["properties"]["title"].update({"x-max-bytes": 1025}),
            "agreement",
        ),
        Plant(
            "another name of a code",
            lambda t: _schemas(t)["B3Title"]["properties"]["message"].update(const="B3 Titel"),
            "agreement",
        ),
        Plant(
            "the code of another status",
            lambda t: t["paths"][CLASHES]["get"]["responses"].update(
                {"410": {"$ref": "#/components/responses/VersionNotFound"}}
            ),
            "agreement",
        ),
        Plant("a query less", lambda t: t["paths"][CLASHES]["get"].pop("parameters"), "agreement"),
    ]


def in_the_document() -> list[Plant]:
    """Faults of the document that need no server to be seen."""
    return _in_the_form() + _beside_api_md()


def in_api_md() -> list[tuple[str, str, str]]:
    """Faults of docs/API.md: a name, what is taken out or replaced, and by what."""
    return [
        ("a code less", "`B8 BadComponent`", "it"),
        ("a code more", "| 422 `B3 Title` |", "| 422 `B3 Title`, 422 `B10 Late` |"),
        ("another name", "`K4 VersionDropped`", "`K4 VersionGone`"),
        ("another status", "| 415 `H12 Encoding` |", "| 406 `H12 Encoding` |"),
        ("a route more", "| `/topics/T/comments` |", "| `/topics/T/comments`, `/files` |"),
        ("a member more", "`labels` | at most", "`labels`, `tags` | at most"),
        ("a member less", "the members `place` and `total`", "the members `place`"),
        ("a member of a version less", "`per_mm`, `rules` and", "`rules` and"),
        ("another bound", "texts of up to 64 bytes", "texts of up to 65 bytes"),
        (
            "a field more",
            "`X-Book-Turn`, `Connection: close`",
            "`X-Book-Turn`, `ETag`, `Connection: close`",
        ),
    ]


def _faults_of(document: Document, api_text: str, check: str) -> list[str]:
    """What a check without a server finds."""
    checks: dict[str, Callable[[], list[str]]] = {
        "standard": lambda: standard.by_the_standard(document),
        "json schema": lambda: standard.by_json_schema(document),
        "references": lambda: standard.by_references(document),
        "operations": lambda: standard.by_operations(document),
        "examples": lambda: examples.check_examples(document)[1],
        "agreement": lambda: agreement.check_agreement(document, api_text),
    }
    return checks[check]()


def _planted(document: Document, change: Change) -> Document:
    tree = copy.deepcopy(document.tree)
    change(tree)
    return Document(tree)


def plant_texts(report: Report, document: Document) -> None:
    """Plants the faults that need no server."""
    text = API_MD.read_text(encoding="utf-8")
    report.doing("planting faults")
    for plant in in_the_document():
        found = _faults_of(_planted(document, plant.change), text, plant.check)
        _seen(report, f"document: {plant.name}", found)
    for name, old, new in in_api_md():
        if old not in text:
            report.add(f"docs/API.md: {name}", [f"it hasn't {old!r}"])
            continue
        _seen(
            report,
            f"docs/API.md: {name}",
            _faults_of(document, text.replace(old, new), "agreement"),
        )


def _seen(report: Report, name: str, found: list[str]) -> None:
    note = found[0][:150] if found else ""
    report.add(f"planted in {name}", [] if found else ["it wasn't seen"], note)


def of_live_documents() -> list[tuple[str, Change]]:
    """Faults of the document that only responses show."""

    def header_less(tree: Tree) -> None:
        tree["paths"][TOPICS]["post"]["responses"]["201"]["headers"].pop("X-Book-Turn")

    def status_less(tree: Tree) -> None:
        tree["paths"][CLASHES]["get"]["responses"].pop("410")

    def turn_wrong(tree: Tree) -> None:
        _schemas(tree)["K1NoProject"]["x-book-turn"] = False

    def type_wrong(tree: Tree) -> None:
        _schemas(tree)["Project"]["properties"]["name"]["type"] = "integer"

    def member_less(tree: Tree) -> None:
        _schemas(tree)["Version"]["properties"].pop("newest")
        _schemas(tree)["Version"]["required"].remove("newest")

    def grid_wrong(tree: Tree) -> None:
        _schemas(tree)["Version"]["properties"]["per_mm"]["const"] = 1

    def code_less(tree: Tree) -> None:
        node = tree["components"]["responses"]["VersionNotFound"]["content"]["application/json"]
        node["schema"]["oneOf"].pop(1)

    return [
        ("a header less", header_less),
        ("a status less", status_less),
        ("a turn that isn't promised", turn_wrong),
        ("a member of another type", type_wrong),
        ("a member less", member_less),
        ("a grid of whole millimetres", grid_wrong),
        ("a code of a response less", code_less),
    ]


def of_drawn_documents() -> list[tuple[str, Change]]:
    """Faults of the document that drawn bodies and queries show."""

    def title_not_needed(tree: Tree) -> None:
        _schemas(tree)["TopicBody"].pop("required")

    def null_as_title(tree: Tree) -> None:
        _schemas(tree)["TopicBody"]["properties"]["title"]["type"] = ["string", "null"]

    def any_word(tree: Tree) -> None:
        for name in ("kind", "storey", "models"):
            _schemas(tree)["RuleBody"]["properties"][name].pop("enum")

    def count_more(tree: Tree) -> None:
        tree["components"]["parameters"]["Count"]["schema"].update(minimum=0, maximum=10**6)

    return [
        ("a title that needn't be there", title_not_needed),
        ("a title that may be null", null_as_title),
        ("any word in a rule", any_word),
        ("another bound of a query", count_more),
    ]


def _field_less(name: str) -> Alter:
    return lambda reply: replace(reply, headers=tuple(it for it in reply.headers if it[0] != name))


def _body(pattern: bytes, new: bytes) -> Alter:
    return lambda reply: replace(reply, body=re.sub(pattern, new, reply.body, count=1))


def _only_nth(alter: Alter, nth: int) -> Alter:
    """Alters the nth response that the alteration changes, and no other."""
    count = itertools.count(1)

    def once(reply: Reply) -> Reply:
        altered = alter(reply)
        return altered if altered != reply and next(count) == nth else reply

    return once


def of_responses() -> list[tuple[str, Alter]]:
    """How a proxy alters responses."""

    def other_status(reply: Reply) -> Reply:
        return replace(reply, status=200 if reply.status == 201 else reply.status)

    def other_order(reply: Reply) -> Reply:
        return replace(reply, headers=tuple(reversed(reply.headers)))

    def other_type(reply: Reply) -> Reply:
        headers = [(k, "text/json" if k == "Content-Type" else v) for k, v in reply.headers]
        return replace(reply, headers=tuple(headers))

    def a_field_more(reply: Reply) -> Reply:
        return replace(reply, headers=(("ETag", "1"), *reply.headers))

    return [
        ("the status 201 as 200", other_status),
        ("fields in another order", other_order),
        ("another media type", other_type),
        ("a field more", a_field_more),
        ("no turn", _field_less("X-Book-Turn")),
        ("no word that the connection is closed", _field_less("Connection")),
        ("a number as a text", _body(rb'"version":(\d+)', rb'"version":"\1"')),
        ("a member more", _body(rb'^\{"creation', rb'{"area":1,"creation')),
        ("a member twice", _body(rb'"title":"Pipe"', rb'"title":"Pipe","title":"Pipe"')),
        ("members in another order", _body(rb'("name":"[^"]*"),("project_id":"[^"]*")', rb"\2,\1")),
        ("a blank", _body(rb'"title":', rb'"title": ')),
        ("another code", _body(rb'"code":"K1"', rb'"code":"K2"')),
        ("a whole number as 1.0", _body(rb'"total":1\b', rb'"total":1.0')),
        ("the 5th turn alone is missing", _only_nth(_field_less("X-Book-Turn"), 5)),
    ]


def _some_requests(document: Document, scene: Scene) -> Iterator[tuple[str, Asked]]:
    """Requests for a few operations: what is taken, what isn't found, and one fault of bytes."""
    directed = Directed(document, scene)
    for name in SOME:
        asked = list(directed.of(document.named(name)))
        faults_of_bytes = [it for it in asked if it.code in ("H1", "H2", "H3", "H4", "H5", "H6")]
        yield name, asked[-1]
        yield from ((name, it) for it in asked if it not in faults_of_bytes)
        yield name, faults_of_bytes[1]


def _asked(judge: Judge, good: Document, scene: Scene, port: int) -> list[str]:
    client, faults = Client(port), []
    for name, asked in _some_requests(good, scene):
        try:
            reply = client.send(asked.data, asked.method)
        except CutOff as why:
            faults.append(str(why))
            continue
        faults += judge.judge(judge.document.named(name), reply, asked.method)
        faults += unexpected(asked, reply)
    client.close()
    return faults


def plant_live(report: Report, document: Document, program: str) -> None:
    """Plants the faults that a running server shows."""
    with Server(program) as server:
        scene = Scene(Client(server.port))
        scene.prepare()
        healthy = _asked(Judge(document), document, scene, server.port)
        report.add("nothing is seen where nothing is planted", healthy)
        for name, change in of_live_documents():
            judge = Judge(_planted(document, change))
            found = _asked(judge, document, scene, server.port)
            _seen(report, f"document, seen by responses: {name}", found)
        for name, alter in of_responses():
            with AlteringProxy(server.port, alter) as proxy:
                found = _asked(Judge(document), document, scene, proxy.port)
            _seen(report, f"responses: {name}", found)
        for name, change in of_drawn_documents():
            _, found = check_drawn(Judge(_planted(document, change)), scene, DRAWN, SEED)
            _seen(report, f"document, seen by drawn requests: {name}", found)


def main() -> int:
    """Plants all, and returns the exit status."""
    parser = argparse.ArgumentParser(description=__doc__)
    parser.add_argument("program", nargs="?", help="also plants in what this program answers")
    program = parser.parse_args().program
    report = Report()
    document = Document.read(DOCUMENT)
    plant_texts(report, document)
    if program:
        try:
            plant_live(report, document, program)
        except (NotReady, CutOff, OSError) as why:
            report.add("the program answers", [str(why)])
    return report.end()


if __name__ == "__main__":
    sys.exit(main())
