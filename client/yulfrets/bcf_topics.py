"""Topics as BCF files carry them: what the reader gives and the writer takes."""

from __future__ import annotations

from dataclasses import dataclass, field

Box = tuple[float, float, float, float, float, float]
"""The least corner and then the greatest, in millimetres."""


@dataclass(frozen=True)
class Component:
    """An element, by its IFC GlobalId or by its number in the program that made it."""

    ifc_guid: str | None = None
    originating_system: str | None = None
    authoring_tool_id: str | None = None


@dataclass
class Coloring:
    """Components of one color: 6 or 8 hexadecimal digits."""

    color: str
    components: list[Component]


@dataclass
class Viewpoint:
    """What a viewpoint selects, colors and shows."""

    guid: str
    index: int | None = None
    selection: list[Component] = field(default_factory=list)
    coloring: list[Coloring] = field(default_factory=list)
    default_visibility: bool = True
    exceptions: list[Component] = field(default_factory=list)
    snapshot: bytes | None = None
    has_camera: bool = False

    def parts(self) -> tuple[object, ...]:
        """What it shows, without its identifier and its picture."""
        colored = tuple((one.color.upper(), tuple(one.components)) for one in self.coloring)
        shown = self.default_visibility, tuple(self.exceptions)
        return self.index, tuple(self.selection), colored, shown


@dataclass
class Comment:
    """A comment, perhaps on a viewpoint of its topic."""

    guid: str
    text: str
    author: str
    date: str
    modified_author: str | None = None
    modified_date: str | None = None
    viewpoint: str | None = None


@dataclass
class Topic:
    """A topic with all that belongs to it."""

    guid: str
    title: str
    creation_author: str
    creation_date: str
    number: str | None = None
    modified_author: str | None = None
    modified_date: str | None = None
    topic_type: str | None = None
    topic_status: str | None = None
    priority: str | None = None
    assigned_to: str | None = None
    stage: str | None = None
    description: str | None = None
    due_date: str | None = None
    index: int | None = None
    labels: list[str] = field(default_factory=list)
    comments: list[Comment] = field(default_factory=list)
    viewpoints: list[Viewpoint] = field(default_factory=list)
