"""Topics of BCF files as they go to the server."""

from __future__ import annotations

from collections import Counter
from dataclasses import dataclass, field
from datetime import UTC, datetime
from typing import Any

from .api import Progress, Project, no_progress
from .bcf_export import whole_topic
from .bcf_topics import Comment, Component, Topic, Viewpoint
from .bcf_write import DEFAULT_STATUS, DEFAULT_TYPE, clean
from .errors import Failure
from .identifiers import LABEL, kept_identifier, own_labels, topic_identifier
from .records import TopicRecord

MOST_TITLE, MOST_TEXT, MOST_COMMENT = 1024, 4096, 8192
MOST_LABELS, MOST_LABEL, MOST_SOURCE, MOST_COMPONENTS = 20, 256, 64, 1000
MOST_USER = 128
TEXTS = ("topic_type", "topic_status", "priority", "assigned_to", "stage", "description")


@dataclass
class Imported:
    """What an import made, and what it couldn't keep."""

    made: int = 0
    updated: int = 0
    there: int = 0
    comments: int = 0
    viewpoints: int = 0
    not_kept: Counter[str] = field(default_factory=Counter)

    def as_json(self) -> dict[str, Any]:
        """The same for --json."""
        return vars(self) | {"not_kept": dict(sorted(self.not_kept.items()))}


def due(text: str) -> str | None:
    """A date as the server takes one; without a zone it is meant as UTC."""
    try:
        moment = datetime.fromisoformat(text.strip())
    except ValueError:
        return None
    moment = moment.replace(tzinfo=UTC) if moment.tzinfo is None else moment
    try:
        moment = moment.astimezone(UTC)
    except OverflowError:
        return None
    return moment.strftime("%Y-%m-%dT%H:%M:%SZ") if 1970 <= moment.year <= 9998 else None


def as_read(value: Any) -> Any:
    """A member as it comes back from a BCF file, which can't carry every text."""
    if isinstance(value, list):
        return [as_read(one) for one in value]
    if not isinstance(value, str):
        return value
    text = clean(value).replace("\r\n", "\n").replace("\r", "\n")
    return text if text.strip() else "-"


class Bodies:
    """Bodies of requests that keep the server's bounds; what is cut or dropped is counted."""

    def __init__(self, not_kept: Counter[str]) -> None:
        self.not_kept = not_kept

    def fit(self, text: str, most: int) -> str:
        """A text of at most so many bytes."""
        data = text.encode("utf-8", "replace")
        if len(data) <= most:
            return text
        self.not_kept["ends of long texts"] += 1
        return data[:most].decode("utf-8", "ignore")

    def labels(self, topic: Topic) -> list[str]:
        """The labels and the one that keeps the identifier."""
        found = [self.fit(one, MOST_LABEL) for one in own_labels(topic.labels)]
        if len(found) > MOST_LABELS:
            self.not_kept["labels"] += len(found) - MOST_LABELS
        if len(found) >= MOST_LABELS or not kept_identifier([LABEL + topic.guid]):
            self.not_kept["identifiers"] += 1
            return found[:MOST_LABELS]
        return [*found, LABEL + topic.guid]

    def topic(self, topic: Topic) -> dict[str, Any]:
        """The body of a topic."""
        body: dict[str, Any] = {"title": self.fit(topic.title or "(no title)", MOST_TITLE)}
        for member in TEXTS:
            value = getattr(topic, member)
            if value is not None:
                body[member] = self.fit(value, MOST_TEXT)
        if topic.index is not None and -(2**31) <= topic.index < 2**31:
            body["index"] = topic.index
        if topic.due_date:
            body["due_date"] = due(topic.due_date)
            self.not_kept["due dates"] += body["due_date"] is None
        body["labels"] = self.labels(topic)
        return body

    def component(self, one: Component) -> dict[str, str]:
        """The body of a component."""
        body = {"ifc_guid": one.ifc_guid} if one.ifc_guid else {}
        if one.originating_system:
            body["originating_system"] = self.fit(one.originating_system, MOST_SOURCE)
        if one.authoring_tool_id:
            body["authoring_tool_id"] = self.fit(one.authoring_tool_id, MOST_SOURCE)
        return body

    def viewpoint(self, view: Viewpoint) -> dict[str, Any]:
        """The body of a viewpoint, with as many components as the server takes."""
        left = MOST_COMPONENTS

        def taken(components: list[Component]) -> list[dict[str, str]]:
            nonlocal left
            found = components[:left]
            self.not_kept["components"] += len(components) - len(found)
            left -= len(found)
            return [self.component(one) for one in found]

        parts = {
            "selection": taken(view.selection),
            "coloring": [
                {"color": one.color, "components": taken(one.components)} for one in view.coloring
            ],
            "visibility": {
                "default_visibility": view.default_visibility,
                "exceptions": taken(view.exceptions),
            },
        }
        body: dict[str, Any] = {"components": parts}
        if view.index is not None and -(2**31) <= view.index < 2**31:
            body["index"] = view.index
        return body

    def comment(self, comment: Comment) -> str:
        """The text of a comment; the server takes no blank one."""
        return self.fit(comment.text or "(viewpoint)", MOST_COMMENT)


class Importer:
    """Puts the topics of a file into a project."""

    def __init__(
        self, project: Project, instance: str, *, update: bool = False, own_name: bool = False
    ) -> None:
        self.project, self.update, self.own_name = project, update, own_name
        self.done = Imported()
        self.bodies = Bodies(self.done.not_kept)
        self.known: dict[str, TopicRecord] = {
            topic_identifier(instance, project.identifier, one): one for one in project.topics()
        }

    def user(self, author: str) -> str | None:
        """The name to ask by: the author's in the file, where it can be one."""
        name = author.strip()
        fits = name.isprintable() and 1 <= len(name.encode("utf-8", "replace")) <= MOST_USER
        return name if fits and not self.own_name else None

    def check_author(self, wanted: str, got: str) -> None:
        """Counts an author that the server, or a front before it, replaced."""
        self.done.not_kept["authors"] += wanted.strip() != got

    def all(self, topics: list[Topic], progress: Progress = no_progress) -> Imported:
        """Imports topics one after the other; a failure says how far it came."""
        for place, topic in enumerate(topics):
            try:
                self.one(topic)
            except Failure as fault:
                fault.fields["imported"] = self.done.as_json()
                raise
            progress(place + 1, len(topics))
        return self.done

    def one(self, topic: Topic) -> None:
        """Makes a topic, or brings one that is there up to date where that is asked for."""
        record = self.known.get(topic.guid)
        if record is None:
            user = self.user(topic.creation_author)
            made: TopicRecord = self.project.post("/topics", self.bodies.topic(topic), user)
            self.check_author(topic.creation_author, made["creation_author"])
            self.known[topic.guid] = made
            self.done.made += 1
            self.add_parts(made["guid"], topic, [], [])
        elif self.update:
            self.refresh(record, topic)
        else:
            self.done.there += 1

    def refresh(self, record: TopicRecord, topic: Topic) -> None:
        """Replaces what differs, and adds the comments and viewpoints that are new."""
        body = self.bodies.topic(topic)
        if LABEL + topic.guid not in record.get("labels", []):
            body["labels"] = [one for one in body["labels"] if one != LABEL + topic.guid]
        for member, default in (("topic_type", DEFAULT_TYPE), ("topic_status", DEFAULT_STATUS)):
            if member not in record and body.get(member) == default:
                del body[member]
        body = {name: value for name, value in body.items() if value not in (None, [])}
        members = (*TEXTS, "title", "index", "due_date", "labels")
        old = {name: as_read(record.get(name)) for name in members}
        before = self.done.comments + self.done.viewpoints
        changed = body != {name: value for name, value in old.items() if value not in (None, [])}
        if changed:
            self.project.put(f"/topics/{record['guid']}", body)
        there = whole_topic(self.project, record)
        self.add_parts(record["guid"], topic, there.viewpoints, there.comments)
        if changed or self.done.comments + self.done.viewpoints > before:
            self.done.updated += 1
        else:
            self.done.there += 1

    def add_parts(
        self, guid: str, topic: Topic, views: list[Viewpoint], comments: list[Comment]
    ) -> None:
        """Adds the viewpoints and comments of a topic that aren't among those that are there."""
        names: dict[str, str] = {}
        left = list(views)
        for view in topic.viewpoints:
            same = next((one for one in left if one.parts() == view.parts()), None)
            if same:
                left.remove(same)
                names[view.guid] = same.guid
                continue
            path = f"/topics/{guid}/viewpoints"
            made = self.project.post(path, self.bodies.viewpoint(view))
            names[view.guid] = made["guid"]
            self.done.viewpoints += 1
        texts = Counter(as_read(one.text) for one in comments)
        for comment in topic.comments:
            said = self.bodies.comment(comment)
            if texts[said] > 0:
                texts[said] -= 1
                continue
            self.add_comment(guid, comment, said, names)

    def add_comment(self, guid: str, comment: Comment, said: str, names: dict[str, str]) -> None:
        """Adds one comment, on its viewpoint where it has one."""
        body = {"comment": said}
        if comment.viewpoint in names:
            body["viewpoint_guid"] = names[comment.viewpoint]
        user = self.user(comment.author)
        made = self.project.post(f"/topics/{guid}/comments", body, user)
        self.check_author(comment.author, made["author"])
        self.done.comments += 1
