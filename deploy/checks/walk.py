"""All calls of BCF API 3.0 and 2.1, and of the foundation API, through the front.

Each row says what the call should be answered: by the standard where it can be had, and `absent`
where neither the server nor the front has it. `walk` compares; `table` prints what was seen.
"""

from __future__ import annotations

from collections.abc import Callable
from dataclasses import dataclass
from typing import Any

from asking import PROJECT, Answer, ask, must
from front import Front

Shape = Callable[[Any], bool]
COMPONENT = {"ifc_guid": "2MF28NhmDBiRVyFakgdbCT"}
VIEW = {
    "index": 1,
    "components": {
        "selection": [COMPONENT],
        "coloring": [{"color": "FF0000", "components": [COMPONENT]}],
        "visibility": {"default_visibility": True, "exceptions": []},
    },
}


@dataclass(frozen=True)
class Call:
    """A call: its method, its path, who answers it, its status and what its body is."""

    method: str
    path: str
    by: str
    status: int
    shape: Shape
    body: Any = None


def has(*names: str) -> Shape:
    """An object with these members, none of them null."""
    return lambda value: isinstance(value, dict) and all(
        value.get(each) is not None for each in names
    )


def each_has(*names: str) -> Shape:
    """A list, not empty, whose objects have these members."""
    return lambda value: isinstance(value, list) and bool(value) and all(map(has(*names), value))


def is_empty_list(value: Any) -> bool:
    """What a server answers that keeps none of these things."""
    return isinstance(value, list) and not value


def is_absent(value: Any) -> bool:
    """An error of the server: it has no such route or method."""
    return isinstance(value, dict) and value.get("code") in ("H7", "H8")


def names_versions(value: Any) -> bool:
    """Both versions that are spoken, and no other."""
    listed = [(each.get("api_id", "bcf"), each["version_id"]) for each in value["versions"]]
    return [each for each in listed if each[0] == "bcf"] == [("bcf", "2.1"), ("bcf", "3.0")]


def offers_basic(value: Any) -> bool:
    """Passwords are taken, and no OAuth is claimed."""
    return bool(value == {"http_basic_supported": True})


def is_eva(value: Any) -> bool:
    """The user of the walk."""
    return bool(value == {"id": "eva", "name": "eva"})


def is_extensions(version: str) -> Shape:
    """Lists of texts under the names of that version, and the topic type of a clash."""
    names = ["topic_type", "topic_status", "topic_label", "snippet_type", "priority", "stage"]
    names += ["project_actions", "topic_actions", "comment_actions"]
    names.append("users" if version == "3.0" else "user_id_type")

    def fits(value: Any) -> bool:
        if sorted(value) != sorted(names) or "Clash" not in value["topic_type"]:
            return False
        return all(isinstance(word, str) for name in names for word in value[name])

    return fits


def beginning(version: str) -> list[Call]:
    """What a client asks first."""
    calls = [
        Call("GET", "/bcf/versions", "nginx", 200, names_versions),
        Call("GET", "/foundation/versions", "nginx", 200, names_versions),
        Call("GET", "/foundation/1.0/auth", "nginx", 200, offers_basic),
        Call("GET", "/foundation/1.0/current-user", "nginx", 200, is_eva),
        Call("GET", f"/bcf/{version}/auth", "nginx", 200, offers_basic),
        Call("GET", f"/bcf/{version}/current-user", "nginx", 200, is_eva),
        Call("GET", "P", "server", 200, has("project_id", "name")),
        Call("GET", "P/extensions", "HAProxy", 200, is_extensions(version)),
        Call("PUT", "P", "absent", 405, is_absent, {"name": "x"}),
    ]
    projects = Call(
        "GET", f"/bcf/{version}/projects", "server", 200, each_has("project_id", "name")
    )
    return [*calls, projects]


def topics() -> list[Call]:
    """Topics, comments and viewpoints."""
    topic, comment = {"title": "Changed"}, {"comment": "changed"}
    told = has("guid", "title", "creation_author", "creation_date")
    said = has("guid", "comment", "author", "date", "topic_guid")
    return [
        Call("GET", "P/topics", "server", 200, each_has("guid", "title")),
        Call("POST", "P/topics", "server", 201, told, {"title": "New"}),
        Call("GET", "P/topics/T", "server", 200, told),
        Call("PUT", "P/topics/T", "server", 200, told, topic),
        Call("GET", "P/topics/T/comments", "server", 200, each_has("guid", "comment")),
        Call("POST", "P/topics/T/comments", "server", 201, said, {"comment": "new"}),
        Call("GET", "P/topics/T/comments/C", "server", 200, said),
        Call("PUT", "P/topics/T/comments/C", "server", 200, said, comment),
        Call("GET", "P/topics/T/viewpoints", "server", 200, each_has("guid")),
        Call("POST", "P/topics/T/viewpoints", "server", 201, has("guid"), VIEW),
        Call("GET", "P/topics/T/viewpoints/W", "server", 200, has("guid", "index")),
        Call("GET", "P/topics/T/viewpoints/W/selection", "server", 200, has("selection")),
        Call("GET", "P/topics/T/viewpoints/W/coloring", "server", 200, has("coloring")),
        Call("GET", "P/topics/T/viewpoints/W/visibility", "server", 200, has("visibility")),
        Call("GET", "P/topics/T/viewpoints/W/snapshot", "absent", 404, is_absent),
        Call("GET", "P/topics/T/viewpoints/W/bitmaps/C", "absent", 404, is_absent),
        Call("GET", "P/topics/T/snippet", "absent", 404, is_absent),
    ]


def beside() -> list[Call]:
    """What stands beside topics: empty to read, absent to write."""
    lists = ["P/documents", "P/topics/events", "P/topics/comments/events", "P/topics/T/files"]
    lists += ["P/topics/T/related_topics", "P/topics/T/document_references", "P/topics/T/events"]
    lists += ["P/topics/T/comments/C/events"]
    read = [Call("GET", path, "HAProxy", 200, is_empty_list) for path in lists]
    return [
        *read,
        Call("PUT", "P/topics/T/files", "absent", 404, is_absent, []),
        Call("PUT", "P/topics/T/related_topics", "absent", 404, is_absent, []),
        Call("POST", "P/topics/T/document_references", "absent", 404, is_absent, {}),
        Call("PUT", "P/topics/T/document_references/C", "absent", 404, is_absent, {}),
        Call("POST", "P/documents", "absent", 404, is_absent, {}),
        Call("GET", "P/documents/C", "absent", 404, is_absent),
    ]


def endings(version: str) -> list[Call]:
    """Deletions, last; 3.0 alone has that of a viewpoint and files_information."""

    def is_deleted(value: Any) -> bool:
        return bool(value == {})

    calls = [
        Call("DELETE", "P/topics/T/comments/C", "server", 200, is_deleted),
        Call("DELETE", "P/topics/T", "server", 200, is_deleted),
    ]
    if version == "3.0":
        calls.insert(0, Call("DELETE", "P/topics/T/viewpoints/W", "server", 200, is_deleted))
        calls.insert(0, Call("GET", "P/files_information", "HAProxy", 200, is_empty_list))
    return calls


def made(front: Front, base: str) -> dict[str, str]:
    """A topic, a comment on it and a viewpoint of it, by the identifiers that they got."""
    topic = ask(front, "POST", f"{base}/topics", {"title": "Walk"}).json()["guid"]
    at = f"{base}/topics/{topic}"
    comment = ask(front, "POST", f"{at}/comments", {"comment": "c"}).json()["guid"]
    view = ask(front, "POST", f"{at}/viewpoints", VIEW).json()["guid"]
    return {"T": topic, "C": comment, "W": view}


def walk(front: Front, version: str) -> list[tuple[Call, Answer, bool]]:
    """Every call once, with what was answered and whether it is as its row says."""
    base = f"/bcf/{version}/projects/{PROJECT}"
    known = made(front, base)
    seen = []
    for call in [*beginning(version), *topics(), *beside(), *endings(version)]:
        parts = [known.get(part, part) for part in call.path.split("/")]
        path = "/".join(parts)
        path = base + path[1:] if path.startswith("P") else path
        answer = ask(front, call.method, path, call.body)
        try:
            fits = answer.status == call.status and call.shape(answer.json())
        except (ValueError, KeyError, TypeError, AttributeError):
            fits = False
        kind = answer.field("Content-Type") == "application/json"
        seen.append((call, answer, fits and kind))
    return seen


def walk_is_right(front: Front, version: str) -> None:
    """The row of the check: all calls are answered as the table says."""
    wrong = [
        f"{call.method} {call.path} ({call.by}): {answer.said()}"
        for call, answer, fits in walk(front, version)
        if not fits
    ]
    must(not wrong, "; ".join(wrong))


def things_that_are_not(front: Front) -> None:
    """Lists of a topic, a comment and a project that aren't there are 404, and no empty list."""
    base = f"/bcf/3.0/projects/{PROJECT}"
    nowhere = "00000001-0000-8000-8000-0000000f4240"
    rows = [
        (f"{base}/topics/{nowhere}/files", "B1"),
        (f"{base}/topics/{nowhere}/events", "B1"),
        (f"{base}/topics/{nowhere}/comments/{nowhere}/events", "B1"),
        (f"{base[:-12]}00000000000f/topics/events", "H7"),
        ("/bcf/3.0/projects/00000009-0000-8000-8000-000000000000/documents", "K1"),
        ("/bcf/2.1/projects/00000009-0000-8000-8000-000000000000/extensions", "K1"),
    ]
    for target, code in rows:
        answer = ask(front, "GET", target)
        must(answer.status == 404, f"{target}: {answer.said()}")
        must(code in ("H7", answer.code()), f"{target}: {answer.said()} and not {code}")


def addresses(front: Front) -> None:
    """The addresses that versions name are those by which the client came."""
    host = f"bim.example:{front.ports['tls']}"
    for path in ("/bcf/versions", "/foundation/versions"):
        listed = ask(front, "GET", path, user="", Host=host).json()["versions"]
        bases = {each["api_base_url"] for each in listed if "api_base_url" in each}
        must(f"https://{host}/bcf/3.0" in bases, f"{path}: {bases}")


def table(front: Front) -> str:
    """What was seen, as lines of text: for docs and for a look."""
    lines = []
    for version in ("3.0", "2.1"):
        lines.append(f"BCF API {version}")
        for call, answer, fits in walk(front, version):
            said = answer.body.decode(errors="replace")[:90]
            mark = "ok" if fits else "WRONG"
            lines.append(
                f"  {mark:5} {call.method:6} {call.path:36} {call.by:8} {answer.status} {said}"
            )
    return "\n".join(lines)
