"""Identifiers of topics, comments and viewpoints in BCF files.

The server counts its objects from 1, and again after each new start, so its own identifiers would
mean different topics in files of different servers. A file gets identifiers that are made of the
server's name, the project, the topic and its date: the same topic has the same one in each export.
A topic that came out of a file keeps the identifier that it had there, in a label.
"""

from __future__ import annotations

import uuid
from collections.abc import Sequence

from .records import TopicRecord

LABEL = "bcf-guid:"


def kept_identifier(labels: Sequence[str]) -> str | None:
    """The identifier that a topic had in the file that it came from."""
    for label in labels:
        if label.startswith(LABEL):
            try:
                return str(uuid.UUID(label.removeprefix(LABEL)))
            except ValueError:
                continue
    return None


def own_labels(labels: Sequence[str]) -> list[str]:
    """The labels without the one that keeps an identifier."""
    return [label for label in labels if not label.startswith(LABEL)]


def topic_identifier(instance: str, project: str, topic: TopicRecord) -> str:
    """The identifier of a topic in files."""
    kept = kept_identifier(topic.get("labels", []))
    if kept:
        return kept
    said = f"{instance}/{project}/{topic['guid']}/{topic['creation_date']}"
    return str(uuid.uuid5(uuid.NAMESPACE_URL, said))


def part_identifier(instance: str, topic: str, guid: str, date: str = "") -> str:
    """The identifier of a comment or a viewpoint of a topic, which has one in files already."""
    return str(uuid.uuid5(uuid.UUID(topic), f"{instance}/{guid}/{date}"))
