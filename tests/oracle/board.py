"""What is said in a project: topics, comments and viewpoints."""

from typing import Any

from tests.oracle.dates import date_of
from tests.oracle.faults import Tree, error
from tests.oracle.lists import listed

TOPIC_KEPT = ("creation_author", "creation_date", "guid", "server_assigned_id")
COMMENT_KEPT = ("author", "date", "guid", "topic_guid")
Reply = tuple[int, object]
Ids = list[bytes]


class Board:
    """What is said in a project: topics, comments and viewpoints by their numbers, which are given
    out together."""

    def __init__(self, number: int, moment: int) -> None:
        self.number, self.made, self.moment = number, 0, moment
        self.topics: dict[int, Tree] = {}
        self.comments: dict[int, tuple[int, Tree]] = {}
        self.views: dict[int, tuple[int, Tree, Tree]] = {}

    @property
    def date(self) -> str:
        return date_of(self.moment)

    def guid(self, serial: int) -> str:
        return f"{self.number:08x}-0000-8000-8000-{serial:012x}"

    def serial(self, identifier: bytes) -> int | None:
        prefix = self.number.to_bytes(4, "big") + bytes.fromhex("000080008000")
        return int.from_bytes(identifier[10:], "big") if identifier[:10] == prefix else None

    def next(self) -> int:
        self.made += 1
        return self.made

    def topic(self, serial: int, body: Tree, user: str) -> Tree:
        self.topics[serial] = dict(
            body,
            creation_author=user,
            creation_date=self.date,
            guid=self.guid(serial),
            server_assigned_id=str(serial),
        )
        return self.topics[serial]

    def view(self, topic: int, serial: int, own: Tree, parts: Tree) -> Tree:
        self.views[serial] = (topic, dict(own, guid=self.guid(serial)), parts)
        return self.views[serial][1]

    def replaced(self, tree: Tree, body: Tree, user: str, kept: tuple[str, ...]) -> Tree:
        tree = {name: tree[name] for name in kept}
        return dict(tree, **body, modified_author=user, modified_date=self.date)

    def delete_topic(self, serial: int) -> None:
        del self.topics[serial]
        self.comments = {s: c for s, c in self.comments.items() if c[0] != serial}
        self.views = {s: v for s, v in self.views.items() if v[0] != serial}


def on_topics(
    board: Board, method: str, body: Tree, user: str, ids: Ids, query: dict[bytes, Any]
) -> Reply:
    if not ids:
        if method == "GET":
            return 200, listed([board.topics[s] for s in sorted(board.topics)], query)
        return 201, board.topic(board.next(), body, user)
    serial = board.serial(ids[0])
    if serial is None or serial not in board.topics:
        return 404, error("B1", "NoTopic")
    if method == "DELETE":
        board.delete_topic(serial)
        return 200, {}
    if method == "PUT":
        board.topics[serial] = board.replaced(board.topics[serial], body, user, TOPIC_KEPT)
    return 200, board.topics[serial]


def the_comment(board: Board, topic: int | None, identifier: bytes) -> int | None:
    """The number of a topic's comment, or None where it has none with the identifier."""
    serial = board.serial(identifier)
    return serial if serial in board.comments and board.comments[serial][0] == topic else None


def the_view(board: Board, topic: int | None, identifier: bytes) -> int | None:
    """The number of a topic's viewpoint, or None where it has none with the identifier."""
    serial = board.serial(identifier)
    return serial if serial in board.views and board.views[serial][0] == topic else None


def on_comments(
    board: Board, method: str, body: tuple[str, bytes | None] | None, user: str, ids: Ids
) -> Reply:
    topic = board.serial(ids[0])
    if topic is None or topic not in board.topics:
        return 404, error("B1", "NoTopic")
    if len(ids) == 1 and method == "GET":
        return 200, [
            board.comments[s][1] for s in sorted(board.comments) if board.comments[s][0] == topic
        ]
    serial = None
    if len(ids) > 1:
        serial = the_comment(board, topic, ids[1])
        if serial is None:
            return 404, error("B2", "NoComment")
    if serial is not None and method == "GET":
        return 200, board.comments[serial][1]
    if serial is not None and method == "DELETE":
        del board.comments[serial]
        return 200, {}
    assert body is not None  # a POST or a PUT
    return write_comment(board, topic, serial, body, user)


def write_comment(
    board: Board, topic: int, serial: int | None, body: tuple[str, bytes | None], user: str
) -> Reply:
    """Makes a comment, or replaces the one of a number."""
    said: Tree = {"comment": body[0]}
    if body[1] is not None:
        view = the_view(board, topic, body[1])
        if view is None:
            return 404, error("B7", "NoViewpoint")
        said["viewpoint_guid"] = board.guid(view)
    if serial is None:
        serial, status = board.next(), 201
        own = {
            "author": user,
            "date": board.date,
            "guid": board.guid(serial),
            "topic_guid": board.guid(topic),
        }
        tree = dict(said, **own)
    else:
        status = 200
        tree = board.replaced(board.comments[serial][1], said, user, COMMENT_KEPT)
    board.comments[serial] = (topic, tree)
    return status, tree


def on_views(
    board: Board, method: str, body: tuple[Tree, Tree] | None, ids: Ids, part: str | None
) -> Reply:
    topic = board.serial(ids[0])
    if topic is None or topic not in board.topics:
        return 404, error("B1", "NoTopic")
    if len(ids) == 1 and method == "GET":
        return 200, [board.views[s][1] for s in sorted(board.views) if board.views[s][0] == topic]
    if method == "POST":
        assert body is not None
        return 201, board.view(topic, board.next(), *body)
    serial = the_view(board, topic, ids[1])
    if serial is None:
        return 404, error("B7", "NoViewpoint")
    if method == "DELETE":
        del board.views[serial]
        return 200, {}
    return 200, {part: board.views[serial][2][part]} if part else board.views[serial][1]
