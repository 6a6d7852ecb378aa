"""The shapes of the server's JSON that the client uses (docs/API.md)."""

from __future__ import annotations

from typing import NotRequired, TypedDict

Element = TypedDict(
    "Element",
    {
        "box": list[int],
        "class": str,
        "guid": str,
        "name": str,
        "storey": str | None,
        "triangles": int,
    },
)


class Model(TypedDict):
    """A model of a version, with its elements."""

    name: str
    elements: list[Element]


class Rule(TypedDict):
    """A clash rule as the server prints it."""

    a: str
    b: str
    distance: NotRequired[int]
    kind: str
    level: str | None
    models: str
    storey: str


class Version(TypedDict):
    """A version of a project. Its boxes are in grid numbers, of which a millimetre has `per_mm`."""

    models: list[Model]
    newest: int
    per_mm: NotRequired[int]
    rules: list[Rule]
    version: int


def grid_of(version: Version) -> int:
    """How many grid numbers a millimetre has; a server that doesn't say so counts millimetres."""
    return version.get("per_mm", 1)


class End(TypedDict):
    """One of the two elements of a clash."""

    guid: str
    model: str


class Clash(TypedDict):
    """A pair of elements that comes within the distance of a rule, or pierces under one without."""

    a: End
    b: End
    distance: NotRequired[int]
    rule: int


class Changed(TypedDict):
    """The answer to a change of the project."""

    elements: int
    left: int
    triangles: int
    version: int


class ProjectRecord(TypedDict):
    """A project of the server."""

    name: str
    project_id: str


class ComponentRecord(TypedDict, total=False):
    """An element as a viewpoint names it."""

    ifc_guid: str
    originating_system: str
    authoring_tool_id: str


class ColoringRecord(TypedDict):
    """Components of one color."""

    color: str
    components: list[ComponentRecord]


class VisibilityRecord(TypedDict):
    """Which components a viewpoint shows."""

    default_visibility: bool
    exceptions: list[ComponentRecord]


class ViewpointRecord(TypedDict):
    """A viewpoint of a topic; the parts are asked for one by one."""

    guid: str
    index: NotRequired[int]


class CommentRecord(TypedDict):
    """A comment on a topic."""

    guid: str
    topic_guid: str
    comment: str
    author: str
    date: str
    modified_author: NotRequired[str]
    modified_date: NotRequired[str]
    viewpoint_guid: NotRequired[str]


class TopicRecord(TypedDict):
    """A topic."""

    guid: str
    server_assigned_id: str
    title: str
    creation_author: str
    creation_date: str
    modified_author: NotRequired[str]
    modified_date: NotRequired[str]
    topic_type: NotRequired[str]
    topic_status: NotRequired[str]
    priority: NotRequired[str]
    assigned_to: NotRequired[str]
    stage: NotRequired[str]
    description: NotRequired[str]
    index: NotRequired[int]
    labels: NotRequired[list[str]]
    due_date: NotRequired[str]
