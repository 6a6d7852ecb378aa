"""`watch`: a line for each change of the project."""

from __future__ import annotations

import time
from collections.abc import Iterator
from dataclasses import dataclass, field
from typing import Any

from ..compare import difference
from ..context import Context
from ..errors import ExitStatus, Refused, Unreachable
from ..records import Clash, TopicRecord

Event = tuple[dict[str, Any], str]


@dataclass
class Seen:
    """What was seen of the project last."""

    version: int = 0
    """The newest version that was seen."""
    checked: int = 0
    """The newest version whose clashes were seen."""
    clashes: list[Clash] = field(default_factory=list)
    topics: dict[str, TopicRecord] = field(default_factory=dict)
    comments: dict[str, set[str]] = field(default_factory=dict)


def look_at_versions(context: Context, seen: Seen) -> Iterator[Event]:
    """New versions, and their clashes once all are found."""
    newest = context.project.newest()
    if newest < seen.version:
        yield {"event": "restart", "version": newest}, "the server was started anew"
        seen.version, seen.checked, seen.clashes = 0, 0, []
    for number in range(seen.version + 1, newest + 1):
        yield {"event": "version", "version": number}, f"version {number}"
    seen.version = newest
    if seen.checked == newest or context.project.clash_count(newest) is None:
        return
    clashes = context.project.clashes(newest, context.words.wait)
    changes = difference(seen.clashes, clashes)
    event = {
        "event": "clashes",
        "version": newest,
        "total": len(clashes),
        "new": len(changes.new),
        "gone": len(changes.gone),
        "base": seen.checked,
    }
    line = f"clashes of version {newest}: {len(clashes)}, {len(changes.new)} new and"
    yield event, f"{line} {len(changes.gone)} gone since version {seen.checked}"
    seen.checked, seen.clashes = newest, clashes


def topic_event(kind: str, topic: TopicRecord) -> Event:
    """A change of a topic."""
    who = topic.get("modified_author") if kind == "changed" else None
    state = f" [{topic['topic_status']}]" if topic.get("topic_status") else ""
    line = f"topic {topic['server_assigned_id']} {kind} by {who or topic['creation_author']}"
    if kind == "deleted":
        line = f"topic {topic['server_assigned_id']} deleted"
    return {"event": f"topic {kind}", "topic": topic}, f"{line}: {topic['title']}{state}"


def look_at_topics(context: Context, seen: Seen) -> Iterator[Event]:
    """Topics that were made, changed or deleted, and comments where they are asked for."""
    now = {one["guid"]: one for one in context.project.topics()}
    for guid, topic in now.items():
        if guid not in seen.topics:
            yield topic_event("made", topic)
        elif seen.topics[guid] != topic:
            yield topic_event("changed", topic)
        if context.words.comments:
            yield from look_at_comments(context, seen, topic)
    for guid, topic in seen.topics.items():
        if guid not in now:
            yield topic_event("deleted", topic)
    seen.topics = now


def look_at_comments(context: Context, seen: Seen, topic: TopicRecord) -> Iterator[Event]:
    """New comments on a topic."""
    known = seen.comments.setdefault(topic["guid"], set())
    for one in context.project.comments(topic["guid"]):
        if one["guid"] not in known:
            known.add(one["guid"])
            line = f"topic {topic['server_assigned_id']}, {one['author']}: {one['comment']}"
            yield {"event": "comment", "comment": one}, line


def look(context: Context, seen: Seen) -> Iterator[Event]:
    """All changes since the last look."""
    yield from look_at_versions(context, seen)
    yield from look_at_topics(context, seen)


def run(context: Context) -> int:
    """Looks every few seconds, until it is stopped or its time is over."""
    words = context.words
    end = time.monotonic() + words.duration if words.duration else None
    seen, away, first = Seen(), False, True
    while True:
        try:
            for event, line in look(context, seen):
                if not first or words.from_start:
                    stamp = time.strftime("%H:%M:%S")
                    context.console.event(event, f"{stamp} {line}")
            if away:
                context.console.event({"event": "back"}, "the server answers again")
            away = first = False
        except (Unreachable, Refused) as fault:
            if first or isinstance(fault, Refused) and fault.code not in ("K3", "K4"):
                raise
            if not away and isinstance(fault, Unreachable):
                context.console.event({"event": "away"}, f"no answer: {fault.message}")
                away = True
        # the connection is given back: it would hold one of the server's lanes meanwhile
        context.transport.close()
        if end is not None and time.monotonic() + words.every > end:
            return ExitStatus.DONE
        time.sleep(words.every)
