"""What docs/API.md says: routes, codes with their names, statuses and members, and the members of bodies."""

from __future__ import annotations

import re
from dataclasses import dataclass, field

from .markdown import Section, Table, quoted, read_sections

METHODS = ("GET", "POST", "PUT", "DELETE")
TOPICS = "Topics, comments and viewpoints"
CODE = re.compile(r"(?:(\d{3}) )?`([HUCBKM]\d{1,2}) (\w+)`")


@dataclass(frozen=True)
class Code:
    """A code with its name, the status that it comes with, and the members that come with it."""

    name: str
    status: int
    members: frozenset[str]


@dataclass
class ApiText:
    """All that is read from the file."""

    routes: set[tuple[str, str]] = field(default_factory=set)
    headings: set[tuple[str, str]] = field(default_factory=set)
    statuses: dict[tuple[str, str], set[int]] = field(default_factory=dict)
    codes: dict[str, Code] = field(default_factory=dict)
    codes_of_section: dict[str, set[str]] = field(default_factory=dict)
    members_of_answer: dict[tuple[str, int], set[str]] = field(default_factory=dict)
    query_of_section: dict[str, set[str]] = field(default_factory=dict)
    bodies: dict[str, dict[str, str]] = field(default_factory=dict)
    shown: dict[str, set[str]] = field(default_factory=dict)
    headers: set[str] = field(default_factory=set)


def _route(words: str) -> tuple[str, str] | None:
    match = re.fullmatch(r"(GET|POST|PUT|DELETE) (/\S+)", words)
    return (match[1], match[2]) if match else None


def _routes_in_front(table: Table) -> set[tuple[str, str]]:
    """The first table names most routes whole. A method alone is one of the path before it."""
    found: set[tuple[str, str]] = set()
    for row in table.rows:
        path = ""
        for words in quoted(row[0]):
            route = _route(words)
            if route:
                path = route[1]
                found.add(route)
            elif words in METHODS and path:
                found.add((words, path))
    return found


def _topic_routes(table: Table, api: ApiText) -> None:
    """The table of topics has a path a row and a method a column, with the status of an answer."""
    front = quoted(table.head[0])[0]
    columns = [re.match(r"(\w+)(?:, (\d+))?", it) for it in table.head[1:]]
    for row in table.rows:
        first, *parts = quoted(row[0])
        paths = [first] + [first.rpartition("/")[0] + part for part in parts]
        for column, cell in zip(columns, row[1:]):
            if column is None or not cell:
                continue
            for path in paths:
                route = (column[1], front + path)
                api.routes.add(route)
                api.statuses.setdefault(route, set()).add(int(column[2] or 200))


def _members(text: str) -> set[str]:
    """The names behind `the member` or `the members`."""
    match = re.search(r"the members? ((?:`\w+`(?:, | and )?)+)", text)
    return set(quoted(match[1])) if match else set()


def _add_code(api: ApiText, code: str, name: str, status: int, members: set[str]) -> None:
    before = api.codes.get(code)
    if status == 507:
        members = members | {"count", "limit"}
    if before is not None:
        members = members | before.members
        status = before.status
    api.codes[code] = Code(name, status, frozenset(members))


def _answers(section: Section, table: Table, api: ApiText) -> None:
    """A table of answers: a row is a status with codes, or a status with members."""
    codes = api.codes_of_section.setdefault(section.title, set())
    for answer, *_ in table.rows:
        status = 0
        members = _members(answer)
        if "`what` is" in answer:
            members = members | {"what"}
        for match in CODE.finditer(answer):
            status = int(match[1] or status)
            codes.add(match[2])
            _add_code(api, match[2], match[3], status, members)
        if span := re.search(r"a code from `U(\d+)` to `U(\d+)`", answer):
            codes.update(f"U{n}" for n in range(int(span[1]), int(span[2]) + 1))
        plain = re.findall(r"(?:^|, )(\d{3})(?=,|$)", answer)
        for word in plain:
            if members:
                api.members_of_answer[section.title, int(word)] = members
            route = _route(section.title)
            if route and int(word) < 300:
                api.statuses.setdefault(route, set()).add(int(word))


def _upload_codes(table: Table, api: ApiText) -> None:
    for first, _, fields in table.rows:
        code, name = quoted(first)[0].split(" ")
        _add_code(api, code, name, 422, set(quoted(fields)))


def _body_members(table: Table, api: ApiText) -> None:
    body = ""
    for row in table.rows:
        body = row[0] or body
        for name in quoted(row[1]):
            api.bodies.setdefault(body, {})[name] = row[2]


def _shown_members(api: ApiText, text: str) -> None:
    """Sentences such as `A topic has ..`: what responses show."""
    for kind in ("topic", "comment", "viewpoint"):
        for match in re.finditer(rf"(?:^|\. )A {kind} has ([^.]*`[^.]*)\.(?: |$)", text, re.M):
            names = set(quoted(match[1]))
            if "the other members of its body" in match[1]:
                names |= set(api.bodies.get(kind, {}))
            api.shown[kind] = {it for it in names if re.fullmatch(r"\w+", it)}
    for kind in ("A version", "An element"):
        if members := re.search(rf"{kind} has (.*?)\.(?: |$)", text):
            api.shown[kind.split()[1]] = set(quoted(members[1]))
    for rule in re.findall(r"A (?:clash )?rule has ([^.]*)\.", text):
        api.shown.setdefault("rule", set()).update(quoted(rule))
    if project := re.search(r"an object with (`name` and `project_id`)", text):
        api.shown["project"] = set(quoted(project[1]))


def _one_table(section: Section, table: Table, api: ApiText) -> None:
    head = table.head
    if head[0] == "Request":
        api.routes |= _routes_in_front(table)
    elif re.match(r"Path \w+ `", head[0]):
        _topic_routes(table, api)
    elif head[0] == "Answer":
        _answers(section, table, api)
    elif head[0] == "Code" and "Fields" in head:
        _upload_codes(table, api)
    elif head[:2] == ["Body", "Member"]:
        _body_members(table, api)
    elif head[:2] == ["Member", "Value"]:
        for row in table.rows:
            for name in quoted(row[0]):
                api.bodies.setdefault("rule", {})[name] = row[1]


def read_api(text: str) -> ApiText:
    """Reads the whole file."""
    api = ApiText()
    for section in read_sections(text):
        route = _route(section.title)
        if route:
            api.headings.add(route)
        for table in section.tables:
            _one_table(section, table, api)
        for match in CODE.finditer(section.text):
            if match[1]:
                behind = re.match(r", with the members? [^.;:]*", section.text[match.end() :])
                members = _members(behind[0]) if behind else set()
                _add_code(api, match[2], match[3], int(match[1]), members)
                api.codes_of_section.setdefault("everywhere", set()).add(match[2])
        if memory := re.search(r"`503 (M1) (\w+)`", section.text):
            _add_code(api, memory[1], memory[2], 503, set())
            api.codes_of_section.setdefault("everywhere", set()).add("M1")
        for sentence in re.findall(r"The query may say [^.]*\.", section.text):
            names = {it.partition("=")[0] for it in quoted(sentence) if "=" in it}
            api.query_of_section.setdefault(section.title, set()).update(names)
        _shown_members(api, section.text)
        if line := re.search(r"lines of a head \w+ in this order: (.*?)\. A body", section.text):
            api.headers = {it.partition(":")[0] for it in quoted(line[1])}
    return api
