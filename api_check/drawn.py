"""Drawn requests against a running server: each response has to be one that the document describes."""

from __future__ import annotations

import json
import re
from collections.abc import Callable
from typing import Any

from hypothesis import HealthCheck, Phase, given, seed, settings
from hypothesis import strategies as st
from hypothesis.configuration import set_hypothesis_home_dir

from .document import Node
from .faults_of_bytes import faulty
from .files import files_of_cases
from .judge import Judge
from .list_texts import CODES, TEXTS
from .places import KEPT
from .plans import Plan, Plans
from .scene import Scene, project
from .wire import CutOff, Reply, Request

RECENT = 60
ROUNDS = 4
Ids = dict[str, str]


class World:
    """The objects that the server is known to have, or to have had."""

    def __init__(self, scene: Scene) -> None:
        self.ends: list[Ids] = [{"project_id": project(1)}, {"project_id": project(2)}, scene.ids]
        self.versions = ["newest", "0", "1", scene.ids["version"]]

    def ids(self, plan: Plan) -> Ids:
        """An identifier or a number for each part of the path, as the plan wants it."""
        names = [it["name"] for it in plan.operation.of("path")]
        guids = [it for it in names if it.endswith(("_guid", "_id"))]
        fitting = [it for it in self.ends if set(guids) <= set(it)][-RECENT:]
        ids = {name: fitting[plan.which % len(fitting)][name] for name in guids}
        ids = {name: _spelled(value, plan.spelling) for name, value in ids.items()}
        ids["version"] = self.versions[-12:][plan.which % len(self.versions[-12:])]
        ids["place"] = ("0", "0", "1", "007")[plan.which % 4]
        ids["model_name"] = ("m", "n", "a.b_c-9")[plan.which % 3]
        return {name: plan.odd.get(name, ids[name]) for name in names}

    def learn(self, plan: Plan, ids: Ids, reply: Reply) -> None:
        """Keeps what a response made."""
        tree = json.loads(reply.body)
        name = plan.operation.name
        if reply.status == 201 and "guid" in tree:
            number = int(tree["guid"][:8], 16)
            known = {"project_id": project(number)}
            if name in ("createComment", "createViewpoint"):
                known["topic_guid"] = _plain(ids["topic_guid"])
                kind = "comment_guid" if name == "createComment" else "viewpoint_guid"
                known[kind] = tree["guid"]
            else:
                known["topic_guid"] = tree["guid"]
            self.ends.append(known)
        if isinstance(tree, dict) and "left" in tree and reply.status in (200, 201):
            self.versions.append(str(tree["version"]))


def _plain(guid: str) -> str:
    """The spelling that the server prints."""
    digits = re.sub("[^0-9a-f]", "", guid.lower().replace("urn:uuid:", ""))
    parts = [digits[:8], digits[8:12], digits[12:16], digits[16:20], digits[20:]]
    return "-".join(parts)


def _spelled(guid: str, which: int) -> str:
    forms = [guid.upper(), guid.replace("-", ""), f"urn:uuid:{guid}", "{" + guid + "}"]
    return forms[which] if which < len(forms) else guid


class Expected:
    """What the document says of the answer to a request: by its path, its query and its body."""

    def __init__(self, judge: Judge) -> None:
        self._judge = judge
        self._loose = self._loose_members()

    def _loose_members(self) -> set[str]:
        """Members of which the server takes more than the schema does."""
        schemas = self._judge.document.tree["components"]["schemas"].values()
        members = [it for schema in schemas for it in schema.get("properties", {}).items()]
        return {name for name, it in members if it.get("x-accepts-more")}

    def _query_fits(self, plan: Plan) -> bool:
        parts = {it["name"]: it["schema"] for it in plan.operation.of("query")}
        known = [(name, value) for name, value in plan.query if name in parts]
        if len({name for name, _ in known}) != len(known):
            return False
        return all(self._value_fits(parts[name], value) for name, value in known)

    @staticmethod
    def _text_fault(plan: Plan) -> str | None:
        """The code of the first text of a filter or an order that isn't taken."""
        given = dict(plan.query)
        for part in plan.operation.of("query"):
            kind = part.get("x-text-of")
            if kind and part["name"] in given and not TEXTS[kind][given[part["name"]]]:
                return CODES[kind]
        return None

    def _value_fits(self, schema: Node, value: str) -> bool:
        if schema["type"] == "integer":
            return value.isdecimal() and self._judge.schemas.takes(schema, int(value))
        return self._judge.schemas.takes(schema, value)

    def _path_fits(self, plan: Plan, ids: Ids) -> bool:
        parts = plan.operation.of("path")
        return all(self._judge.schemas.takes(it["schema"], ids[it["name"]]) for it in parts)

    def _body_fits(self, plan: Plan) -> bool | None:
        """Whether the schema takes the body. Nothing where that doesn't say what the server does."""
        schema = plan.operation.body["application/json"]["schema"]
        if self._judge.schemas.takes(schema, plan.tree):
            return True
        strict = {name: it for name, it in plan.tree.items() if name not in self._loose}
        return None if self._judge.schemas.takes(schema, strict) else False

    def statuses(self, plan: Plan, ids: Ids) -> tuple[int, str] | bool | None:
        """The status and code that must come, whether the body must be taken, or nothing."""
        if not self._path_fits(plan, ids):
            return 404, "H7"
        if plan.gzip:
            return 415, "H12"
        if not self._query_fits(plan):
            return 400, "H11"
        if code := self._text_fault(plan):
            return 400, code
        if "application/json" not in plan.operation.body:
            return True if not plan.operation.body else None
        if plan.data is not None or not isinstance(plan.tree, dict):
            return 400, "H9"
        fits = self._body_fits(plan)
        return (422, "") if fits is False else fits

    def fault(self, plan: Plan, ids: Ids, reply: Reply) -> str | None:
        """How the answer differs from what is expected."""
        expected = self.statuses(plan, ids)
        here = f"{reply.status} {reply.body[:100]!r}"
        if isinstance(expected, tuple):
            status, code = expected
            if reply.status != status or f'"code":"{code}'.encode() not in reply.body:
                return f"wanted {status} {code}, came {here}"
        elif expected and (reply.status in (400, 415, 422) or b'"code":"H7"' in reply.body):
            return f"it fits, but is refused: {here}"
        return None


def author_fault(plan: Plan, reply: Reply) -> str | None:
    """Whether the user of the request is the author."""
    members = {"createTopic": "creation_author", "createTopicOfClash": "creation_author"}
    members |= {"replaceTopic": "modified_author", "replaceComment": "modified_author"}
    member = (members | {"createComment": "author"}).get(plan.operation.name)
    if member is None or reply.status not in (200, 201):
        return None
    wanted = plan.user or "anonymous"
    came = json.loads(reply.body).get(member)
    return None if came == wanted else f"{member} is {came!r}, wanted {wanted!r}"


class Drawn:
    """Asks what is drawn, and keeps what is wrong."""

    def __init__(self, judge: Judge, scene: Scene) -> None:
        self.judge = judge
        self.client = scene.client
        self.world = World(scene)
        self.expected = Expected(judge)
        good, bad = files_of_cases(judge.document)
        self.files = good * 6 + bad
        self.count = 0
        self.faults: list[str] = []

    def _request(self, plan: Plan, ids: Ids) -> Request:
        path = re.sub(r"\{(\w+)\}", lambda match: ids[match[1]], plan.operation.path)
        query = "&".join(f"{name}={value}" for name, value in plan.query)
        fields = [("X-User", plan.user)] if plan.user is not None else []
        fields += [("Content-Encoding", "gzip")] if plan.gzip else []
        target = f"{path}?{query}" if query else path
        return Request(plan.operation.method, target, plan.body(self.files), tuple(fields))

    def ask(self, plan: Plan) -> None:
        """Asks one request, and judges the response."""
        self.count += 1
        ids = self.world.ids(plan)
        request = self._request(plan, ids)
        data, wanted = request.bytes(), None
        if plan.fault is not None:
            status, code, data = faulty(Request(request.method, request.target))[plan.fault]
            wanted = (status, code)
        try:
            reply = self.client.send(data, request.method)
        except CutOff as why:
            self._fault(request, str(why))
            return
        for fault in self.judge.judge(plan.operation, reply, request.method):
            self._fault(request, fault)
        if wanted is not None:
            if (reply.status, json.loads(reply.body)["code"]) != wanted:
                self._fault(request, f"{plan.fault}: wanted {wanted}, came {reply.status}")
            return
        for found in (self.expected.fault(plan, ids, reply), author_fault(plan, reply)):
            if found is not None:
                self._fault(request, found)
        if reply.status < 400:
            self.world.learn(plan, ids, reply)

    def _fault(self, request: Request, fault: str) -> None:
        shown = (request.body or b"")[:200]
        self.faults.append(f"{request.method} {request.target} {shown!r}: {fault}")


def _run(drawn: Drawn, plans: st.SearchStrategy[Plan], count: int, number: int) -> None:
    """Asks so many plans."""

    @seed(number)
    @settings(
        max_examples=count,
        deadline=None,
        database=None,
        phases=[Phase.generate],
        suppress_health_check=list(HealthCheck),
    )
    @given(plans)
    def asks(plan: Plan) -> None:
        drawn.ask(plan)

    run: Callable[[], Any] = asks
    run()


def check_drawn(judge: Judge, scene: Scene, count: int, number: int) -> tuple[int, list[str]]:
    """Draws and asks about so many requests, by the seed: some of each operation, in rounds."""
    set_hypothesis_home_dir(str(KEPT / "hypothesis"))  # type: ignore[no-untyped-call]
    drawn, plans = Drawn(judge, scene), Plans(judge.document)
    for turn in range(ROUNDS):
        shares = plans.shares(count // ROUNDS)
        for place, (name, share) in enumerate(shares.items()):
            _run(drawn, plans.of(name), share, (number * ROUNDS + turn) * len(shares) + place)
    return drawn.count, drawn.faults
