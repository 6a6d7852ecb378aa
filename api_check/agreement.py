"""Do docs/API.md and docs/openapi.yaml say the same? What only one of them has is named."""

from __future__ import annotations

import re
from collections.abc import Iterable, Iterator
from typing import Any

from .api_md import TOPICS, ApiText, read_api
from .document import Document, Node, Operation
from .list_texts import CODES

API, DOC = "docs/API.md", "docs/openapi.yaml"
HEAD, TARGETS = "The head and the body of a request", "Targets, methods, queries"
PROJECTS = "Projects"
SHOWN = {
    "topic": "Topic",
    "comment": "Comment",
    "viewpoint": "Viewpoint",
    "element": "Element",
    "version": "Version",
    "project": "Project",
    "rule": "Rule",
}


def _only(what: str, here: Iterable[Any], there: Iterable[Any]) -> Iterator[str]:
    """What one of the two has and the other hasn't."""
    one, other = set(here), set(there)
    for it in sorted(one - other, key=str):
        yield f"{what} {it} is only in {API}"
    for it in sorted(other - one, key=str):
        yield f"{what} {it} is only in {DOC}"


class Agreement:
    """Compares the two texts."""

    def __init__(self, api: ApiText, document: Document) -> None:
        self.api = api
        self.document = document
        self.schemas = document.tree["components"]["schemas"]

    def _path(self, operation: Operation) -> str:
        letters = {it["name"]: it["x-letter"] for it in operation.of("path")}
        return re.sub(r"\{(\w+)\}", lambda match: str(letters[match[1]]), operation.path)

    def _properties(self, schema: Node) -> Node:
        properties: Node = self.document.at(schema).get("properties", {})
        return properties

    def _section(self, operation: Operation) -> str:
        """The section of docs/API.md that speaks of the operation."""
        path = self._path(operation)
        if path.startswith("/coord/1") and not path.endswith("/topic"):
            return f"{operation.method} {path}"
        return TOPICS if "/topic" in path else PROJECTS

    def routes(self) -> Iterator[str]:
        """Methods and paths."""
        described = {(it.method, self._path(it)) for it in self.document.operations}
        yield from _only("the route", self.api.routes, described)
        for route in sorted(self.api.headings - described):
            yield f"the heading {route} is only in {API}"

    def statuses(self) -> Iterator[str]:
        """The statuses of requests that are taken, as far as the tables give them."""
        for operation in self.document.operations:
            route = (operation.method, self._path(operation))
            here = self.api.statuses.get(route)
            if here is not None:
                there = {it for it in operation.responses if it < 300}
                yield from _only(f"{operation.name}: the status", here, there)

    def codes(self) -> Iterator[str]:
        """Codes with their names, statuses and members."""
        api, errors = self.api.codes, self.document.errors
        yield from _only("the code", api, errors)
        yield from _only("ErrorCode: the code", api, self.schemas["ErrorCode"]["enum"])
        at: dict[str, set[int]] = {}
        responses = [it.responses for it in self.document.operations] + [self.document.others]
        for each in responses:
            for status, response in each.items():
                for code in self.document.codes_of(response.schema):
                    at.setdefault(code, set()).add(status)
        for code in sorted(set(api) & set(errors)):
            schema = errors[code]
            message = schema["properties"]["message"]["const"]
            yield from _only(f"{code}: the name", {f"{code} {api[code].name}"}, {message})
            yield from _only(f"{code}: the status", {api[code].status}, at.get(code, set()))
            members = set(schema["properties"]) - {"code", "message"}
            yield from _only(f"{code}: the member", api[code].members, members)
            if set(schema["required"]) != set(schema["properties"]):
                yield f"{code}: not all its members are required"

    def codes_of_sections(self) -> Iterator[str]:
        """Which codes the operations of a section answer, beside those of any request."""
        api = self.api.codes_of_section
        everywhere = api.get(HEAD, set()) | api.get(TARGETS, set()) | api.get("everywhere", set())
        there: dict[str, set[str]] = {}
        for operation in self.document.operations:
            codes = there.setdefault(self._section(operation), set())
            for response in operation.responses.values():
                codes.update(self.document.codes_of(response.schema))
        for section, codes in there.items():
            here = api.get(section, set())
            yield from _only(f"{section}: the code", here - everywhere, codes - everywhere)
        for operation in self.document.operations:
            yield from self._any_request(operation, everywhere)

    def _any_request(self, operation: Operation, everywhere: set[str]) -> Iterator[str]:
        """The codes of any request have to be with each operation that can answer them."""
        found = {
            code
            for response in operation.responses.values()
            for code in self.document.codes_of(response.schema)
        }
        wanted = set(everywhere) - {"H8"}
        if not operation.of("path"):
            wanted -= {"H7", "K1"}
        if "application/json" not in operation.body:
            wanted -= {"H9"}
        if not operation.of("query"):
            wanted -= {"H11"}
        kinds = {it.get("x-text-of") for it in operation.of("query")}
        wanted -= {code for kind, code in CODES.items() if kind not in kinds}
        yield from _only(f"{operation.name}: the code", wanted, found & everywhere)

    def answers(self) -> Iterator[str]:
        """The members of responses, as far as tables or sentences give them."""
        for operation in self.document.operations:
            section = self._section(operation)
            for status, response in operation.responses.items():
                here = self.api.members_of_answer.get((section, status))
                if here is not None and status < 300:
                    there = self._properties(response.schema)
                    yield from _only(f"{operation.name} {status}: the member", here, there)
        for kind, name in SHOWN.items():
            there = self._properties(self.schemas[name])
            yield from _only(f"{name}: the member", self.api.shown.get(kind, set()), there)

    def _nested(self, schema: Node) -> dict[str, Node]:
        """The members of a body and of the objects in it, but not those of a component."""
        found: dict[str, Node] = {}
        for name, member in self._properties(schema).items():
            found[name] = self.document.at(member)
            inner = self.document.at(found[name].get("items", member))
            if inner is not self.schemas["ComponentBody"] and "properties" in inner:
                found.update(self._nested(inner))
        return found

    def bodies(self) -> Iterator[str]:
        """The members of bodies, with the bounds in bytes and the words that they take."""
        names = {"topic": "TopicBody", "comment": "CommentBody", "viewpoint": "ViewpointBody"}
        names |= {"component": "ComponentBody", "rule": "RuleBody"}
        yield from _only("the body", self.api.bodies, names)
        for body, name in names.items():
            here = self.api.bodies.get(body, {})
            there = self._nested(self.schemas[name])
            inside = {
                it
                for text in here.values()
                for it in re.findall(r"`([a-z_]+)`", text)
                if it in there and "enum" not in there.get(it, {})
            }
            yield from _only(f"{name}: the member", set(here) | inside, there)
            for member in set(here) & set(there):
                yield from self._bounds(f"{name}: {member}", here[member], there[member])

    def _bounds(self, where: str, text: str, schema: Node) -> Iterator[str]:
        deep = self.document.at(schema.get("items", schema))
        for match in re.finditer(r"([\d,]*\d) bytes", text):
            most = int(match[1].replace(",", ""))
            if deep.get("x-max-bytes") != most:
                yield f"{where}: {most} bytes in {API}, {deep.get('x-max-bytes')} in {DOC}"
        if "x-max-bytes" in deep and "bytes" not in text:
            yield f"{where}: a bound of bytes is only in {DOC}"
        words = {it for it in schema.get("enum", []) if it is not None}
        if words:
            yield from _only(f"{where}: the word", set(re.findall(r"`([a-z]+)`", text)), words)

    def queries(self) -> Iterator[str]:
        """The parts of queries."""
        there: dict[str, set[str]] = {}
        for it in self.document.operations:
            there.setdefault(self._section(it), set()).update(p["name"] for p in it.of("query"))
        for section, names in there.items():
            here = self.api.query_of_section.get(section, set())
            yield from _only(f"{section}: the part of the query", here, names)

    def headers(self) -> Iterator[str]:
        """The fields of responses. OpenAPI leaves Content-Type to the media type, and nobody describes a length."""
        there = {
            name
            for it in self.document.operations
            for r in it.responses.values()
            for name in r.headers
        }
        there |= {name for it in self.document.others.values() for name in it.headers}
        there |= {"Content-Type", "Content-Length"}
        yield from _only("the field of a head", self.api.headers, there)

    def parts(self) -> Iterator[tuple[str, list[str]]]:
        """All comparisons with what they find."""
        for name in (
            "routes",
            "statuses",
            "codes",
            "codes_of_sections",
            "answers",
            "bodies",
            "queries",
            "headers",
        ):
            yield name.replace("_", " "), list(getattr(self, name)())


def check_agreement(document: Document, api_text: str) -> list[str]:
    """All that only one of the two has."""
    parts = Agreement(read_api(api_text), document).parts()
    return [fault for _, faults in parts for fault in faults]
