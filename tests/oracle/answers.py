"""The answer to a request, and what it changes."""

import re
import urllib.parse
from dataclasses import dataclass
from typing import Any

from tests.oracle.board import on_comments, on_topics, on_views
from tests.oracle.bodies import comment_in, identifier_in, object_in, rules_in, topic_in, view_in
from tests.oracle.book import Book
from tests.oracle.faults import Answer, Refused, Tree, error
from tests.oracle.framing import Request
from tests.oracle.lists import Bad, filter_in, order_in
from tests.oracle.model_file import build
from tests.oracle.model_file.lengths import PER_MM
from tests.oracle.versions import MOST_ELEMENTS, MOST_MEMBERSHIPS, Models, Version, memberships_of

PART = r"([^/]+)"
TOPIC = f"/bcf/3.0/projects/{PART}/topics/{PART}"
ROWS = [
    (re.compile("/bcf/3.0/projects$"), "projects", ["GET"]),
    (re.compile(f"/bcf/3.0/projects/{PART}$"), "project", ["GET"]),
    (re.compile(f"/bcf/3.0/projects/{PART}/topics$"), "topics", ["GET", "POST"]),
    (re.compile(f"{TOPIC}$"), "topics", ["GET", "PUT", "DELETE"]),
    (re.compile(f"{TOPIC}/comments$"), "comments", ["GET", "POST"]),
    (re.compile(f"{TOPIC}/comments/{PART}$"), "comments", ["GET", "PUT", "DELETE"]),
    (re.compile(f"{TOPIC}/viewpoints$"), "views", ["GET", "POST"]),
    (re.compile(f"{TOPIC}/viewpoints/{PART}$"), "views", ["GET", "DELETE"]),
    (re.compile(f"{TOPIC}/viewpoints/{PART}/(selection|coloring|visibility)$"), "part", ["GET"]),
    (
        re.compile(f"/coord/1/projects/{PART}/versions/{PART}/clashes/{PART}/topic$"),
        "clash topic",
        ["POST"],
    ),
    (re.compile(f"/coord/1/projects/{PART}/models/{PART}$"), "model", ["PUT", "DELETE"]),
    (re.compile(f"/coord/1/projects/{PART}/rules$"), "rules", ["PUT"]),
    (re.compile(f"/coord/1/projects/{PART}/versions/{PART}$"), "version", ["GET"]),
    (re.compile(f"/coord/1/projects/{PART}/versions/{PART}/clashes$"), "clashes", ["GET"]),
]


READERS: dict[str, Any] = {
    "topics": topic_in,
    "comments": comment_in,
    "views": view_in,
    "rules": rules_in,
}
QUERIES = {
    "model": [b"grid"],
    "clashes": [b"first", b"count"],
    "list": [b"$filter", b"$orderby", b"$skip", b"$top"],
}
PARTS = ("selection", "coloring", "visibility")


@dataclass
class Resource:
    """What a path names: its kind, its methods, the pieces of the path that tell it apart, the
    identifiers among them."""

    kind: str
    methods: list[str]
    pieces: tuple[str, ...]
    ids: list[bytes]


@dataclass
class Asked:
    """A request whose form is right: what it names, how, by whom, with which body and query."""

    resource: Resource
    method: str
    user: str
    seen: int | None  # the turn that the request gives
    body: Any
    query: dict[bytes, Any]


def path_of(target: str) -> str | None:
    """The path of a target, which may be a whole URL of http."""
    path = target.partition("?")[0]
    if not path.startswith("http://"):
        return path
    slash = path.find("/", 7)
    return None if slash < 0 else path[slash:]


def has_names(kind: str, pieces: tuple[str, ...]) -> bool:
    """Whether the pieces of a path that aren't identifiers are spelled as they must be."""
    if kind == "model":
        return re.fullmatch(r"[A-Za-z0-9_.\-]{1,64}", pieces[1]) is not None
    if kind == "clash topic" and not re.fullmatch("[0-9]{1,15}", pieces[2]):
        return False
    if kind in ("version", "clashes", "clash topic"):
        return re.fullmatch("newest|[0-9]{1,15}", pieces[1]) is not None
    return True


def resource_of(target: str) -> Resource | None:
    """What a target names, or None."""
    path = path_of(target)
    if path is None:
        return None
    for row, kind, methods in ROWS:
        found = row.match(path)
        if found:
            break
    else:
        return None
    pieces = found.groups()
    named = [
        piece for piece in (pieces if "/bcf/" in row.pattern else pieces[:1]) if piece not in PARTS
    ]
    ids = [identifier_in(piece) for piece in named]
    known = [it for it in ids if it is not None]
    if len(known) < len(ids) or not has_names(kind, pieces):
        return None
    return Resource(kind, methods, pieces, known)


def is_good(name: bytes, value: bytes) -> bool:
    """Whether a parameter of a query may have the value."""
    if name == b"grid":
        return value in (b"exact", b"snap")
    if name in (b"$filter", b"$orderby"):
        return True
    return re.fullmatch(rb"[0-9]{1,15}", value) is not None and (
        name != b"count" or 1 <= int(value) <= 1000
    )


def query_of(kind: str, target: str) -> dict[bytes, bytes]:
    """The parameters of a query that the resource knows."""
    given: dict[bytes, bytes] = {}
    for piece in filter(None, target.partition("?")[2].split("&")):
        name, value = (
            urllib.parse.unquote_to_bytes(p.replace("+", " ").encode("latin-1"))
            for p in piece.partition("=")[::2]
        )
        if name not in QUERIES.get(kind, []):
            continue
        if name in given or not is_good(name, value):
            raise Refused("H11", "Query", 400, name=name.decode())
        given[name] = value
    return given


def listing_of(query: dict[bytes, bytes]) -> dict[bytes, Any]:
    """The parameters of a list, with what the texts of the filter and of the order say."""
    read: dict[bytes, Any] = dict(query)
    for name, reader, code, word in (
        (b"$filter", filter_in, "H14", "Filter"),
        (b"$orderby", order_in, "H15", "Order"),
    ):
        if name not in query:
            continue
        try:
            read[name] = reader(query[name].decode(errors="replace").encode())
        except Bad as bad:
            raise Refused(code, word, 400, at=bad.at) from None
    return read


def body_of(kind: str, method: str, body: bytes, query: dict[bytes, bytes]) -> Any:
    """What a body says, where the request has one that is read: the model of an upload, or the
    members of an object."""
    if kind == "model" and method == "PUT":
        return build(body, query.get(b"grid") == b"snap")
    if method not in ("POST", "PUT") or kind not in READERS:
        return None
    try:
        return READERS[kind](object_in(body))
    except (ValueError, RecursionError):
        raise Refused("H9", "BadJson", 400) from None


def answer(book: Book, request: Request) -> Answer:
    """Status, tree, turn or None, and the methods of Allow."""
    target, method = request.target.decode("latin-1"), request.method.decode()
    resource = resource_of(target)
    if resource is None:
        return Refused("H7", "NoRoute", 404).answer()
    if method not in resource.methods:
        return 405, error("H8", "Method"), None, resource.methods
    if request.encoded:
        return Refused("H12", "Encoding", 415).answer()
    try:
        is_list = resource.kind == "topics" and method == "GET" and len(resource.ids) == 1
        query: dict[bytes, Any] = query_of("list" if is_list else resource.kind, target)
        if is_list:
            query = listing_of(query)
        if request.bad_turn:
            raise Refused("H13", "TurnField", 400)
        body = body_of(resource.kind, method, request.body, query)
    except Refused as fault:
        return fault.answer()
    return in_turn(book, Asked(resource, method, request.user, request.seen, body, query))


def project_tree(number: int) -> Tree:
    return {"name": f"Project {number}", "project_id": f"{number:08x}-0000-8000-8000-000000000000"}


def in_turn(book: Book, asked: Asked) -> Answer:
    """The answer at the book's turn to a request whose form is right."""
    kind, ids = asked.resource.kind, asked.resource.ids
    if asked.seen is not None and asked.seen > book.turn:
        return book.booked(409, error("K13", "TurnAhead", given=asked.seen, turn=book.turn + 1))
    if kind == "projects":
        return book.booked(200, [project_tree(n) for n in sorted(book.boards)])
    number = book.project(ids[0])
    if number is None:
        return book.booked(404, error("K1", "NoProject"))
    if kind == "project":
        return book.booked(200, project_tree(number))
    board = book.boards[number]
    if kind == "topics":
        return book.booked(
            *on_topics(board, asked.method, asked.body, asked.user, ids[1:], asked.query)
        )
    if kind == "comments":
        return book.booked(*on_comments(board, asked.method, asked.body, asked.user, ids[1:]))
    if kind in ("views", "part"):
        part = asked.resource.pieces[-1] if kind == "part" else None
        return book.booked(*on_views(board, asked.method, asked.body, ids[1:], part))
    if kind in ("rules", "model"):
        return on_models(book, number, asked)
    return on_versions(book, number, asked)


def on_models(book: Book, number: int, asked: Asked) -> Answer:
    """The answer to a request that makes a version."""
    last = book.versions[number][-1]
    if asked.resource.kind == "rules":
        return book.changed(200, number, last.models, asked.body)
    name = asked.resource.pieces[1]
    if asked.method == "PUT":
        models = dict(last.models, **{name: asked.body})
        fault = too_large(models)
        if fault:
            return book.booked(507, fault)
        return book.changed(201, number, models, last.rules, asked.body)
    if name not in last.models:
        return book.booked(404, error("K2", "NoModel"))
    left = {other: model for other, model in last.models.items() if other != name}
    return book.changed(200, number, left, last.rules)


def too_large(models: Models) -> Tree | None:
    """Why a version may not have these models, if it may not."""
    count, spread = sum(map(len, models.values())), memberships_of(models)
    if count > MOST_ELEMENTS:
        return error("K7", "ElementsFull", count=count, limit=MOST_ELEMENTS)
    if spread > MOST_MEMBERSHIPS:
        return error("K8", "TooSpread", count=spread, limit=MOST_MEMBERSHIPS)
    return None


def version_tree(version: Version, number: int, newest: int) -> Tree:
    """A version as it is printed, its boxes in grid numbers."""
    models = [
        {"elements": [it.tree() for it in model], "name": name}
        for name, model in version.models.items()
    ]
    return {
        "models": models,
        "newest": newest,
        "per_mm": PER_MM,
        "rules": version.rules,
        "version": number,
    }


def on_versions(book: Book, number: int, asked: Asked) -> Answer:
    """The answer to a request that asks for a version, its clashes, or a topic of one of them."""
    named, newest = asked.resource.pieces[1], len(book.versions[number]) - 1
    wanted = newest if named == "newest" else int(named)
    if wanted > newest:
        return book.booked(404, error("K3", "NoVersion", newest=newest))
    if wanted + 16 <= newest:
        return book.booked(410, error("K4", "VersionDropped", newest=newest, version=wanted))
    version = book.versions[number][wanted]
    if asked.resource.kind == "version":
        return book.booked(200, version_tree(version, wanted, newest))
    if version.undone:
        return book.booked(202, {"left": len(version.undone), "version": wanted})
    if asked.resource.kind == "clash topic":
        return clash_topic(book, number, version, asked)
    tree = page(version, wanted, asked.query)
    is_known = asked.seen is None or asked.seen <= book.printed
    if (number, wanted) in book.shelf and named != "newest" and is_known:
        return 200, tree, book.printed, []
    book.shelf.add((number, wanted))
    return book.booked(200, tree)


def page(version: Version, number: int, query: dict[bytes, bytes]) -> Tree:
    """A page of a version's clashes."""
    pairs, first = version.clashes, int(query.get(b"first", b"0"))
    some = pairs[first : first + int(query.get(b"count", b"1000"))]
    return {"clashes": some, "first": first, "total": len(pairs), "version": number}


def clash_topic(book: Book, number: int, version: Version, asked: Asked) -> Answer:
    """Makes a topic of a clash, and its viewpoint."""
    board, pairs, place = book.boards[number], version.clashes, int(asked.resource.pieces[2])
    if place >= len(pairs):
        return book.booked(404, error("K12", "NoClash", place=place, total=len(pairs)))
    a, b = pairs[place]["a"]["guid"], pairs[place]["b"]["guid"]
    members = {"title": f"Clash of {a} and {b}", "topic_type": "Clash", "topic_status": "Open"}
    topic = board.topic(board.next(), members, asked.user)
    parts = {
        "selection": [{"ifc_guid": a}, {"ifc_guid": b}],
        "coloring": [],
        "visibility": {"default_visibility": False, "exceptions": []},
    }
    board.view(board.made, board.next(), {}, parts)
    return book.booked(201, topic)
