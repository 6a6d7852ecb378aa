"""Topics of the server as they go into BCF files, with cameras and pictures."""

from __future__ import annotations

from collections.abc import Iterable
from dataclasses import dataclass, field

from .api import Progress, Project, no_progress
from .bcf_topics import Box, Coloring, Comment, Component, Topic, Viewpoint
from .cameras import Camera, camera_for, joined
from .identifiers import own_labels, part_identifier, topic_identifier
from .records import (
    CommentRecord,
    ComponentRecord,
    TopicRecord,
    Version,
    ViewpointRecord,
    VisibilityRecord,
    grid_of,
)
from .snapshots import near, snapshot, solids_of

PLAIN_MEMBERS = (
    "creation_author",
    "creation_date",
    "modified_author",
    "modified_date",
    "topic_type",
    "topic_status",
    "priority",
    "assigned_to",
    "stage",
    "description",
    "due_date",
    "index",
)


def component_of(record: ComponentRecord) -> Component:
    """A component as files carry it."""
    return Component(
        record.get("ifc_guid"), record.get("originating_system"), record.get("authoring_tool_id")
    )


def is_shown(record: VisibilityRecord) -> bool:
    """Whether elements are shown by default.

    The server says false where nothing was said, as in the viewpoint of a clash. A view that hides
    all and has no exceptions would be empty, so it shows all.
    """
    return record["default_visibility"] or not record["exceptions"]


def in_millimetres(numbers: list[int], grid: int) -> Box:
    """A box, of grid numbers of which a millimetre has so many."""
    low_x, low_y, low_z, high_x, high_y, high_z = (number / grid for number in numbers)
    return low_x, low_y, low_z, high_x, high_y, high_z


@dataclass
class Scene:
    """The boxes of a version's elements in millimetres, by GlobalId."""

    boxes: dict[str, list[Box]] = field(default_factory=dict)
    all: list[Box] = field(default_factory=list)

    @classmethod
    def of(cls, version: Version) -> Scene:
        """The boxes of a version, from the grid that it says."""
        scene, grid = cls(), grid_of(version)
        for model in version["models"]:
            for element in model["elements"]:
                box = in_millimetres(element["box"], grid)
                scene.boxes.setdefault(element["guid"], []).append(box)
                scene.all.append(box)
        return scene

    def of_components(self, components: Iterable[Component]) -> list[Box]:
        """The boxes of the components that the version has."""
        return [box for one in components for box in self.boxes.get(one.ifc_guid or "", [])]


def looked_at(view: Viewpoint, scene: Scene) -> list[Component]:
    """What a viewpoint is about: its selection, else what it colors, else what alone it shows."""
    colored = [one for group in view.coloring for one in group.components]
    alone = [] if view.default_visibility else view.exceptions
    for components in (view.selection, colored, alone):
        if scene.of_components(components):
            return components
    return []


def camera_of(view: Viewpoint, scene: Scene) -> Camera:
    """A camera that shows what the viewpoint is about, else the whole version."""
    boxes = scene.of_components(looked_at(view, scene))
    return camera_for(boxes or ([joined(scene.all)] if scene.all else []))


def picture_of(view: Viewpoint, scene: Scene, camera: Camera) -> bytes | None:
    """A picture of what the viewpoint is about; None where the version has none of it."""
    colors = {one: group.color for group in view.coloring for one in group.components}
    chosen = [
        (box, colors.get(one))
        for one in looked_at(view, scene)
        for box in scene.of_components([one])
    ]
    if not chosen:
        return None
    boxes = [box for box, _ in chosen]
    return snapshot(solids_of(chosen), near(scene.all, boxes), camera)


def viewpoint_of(project: Project, topic: str, record: ViewpointRecord) -> Viewpoint:
    """A viewpoint whole, by the server's own identifier."""
    guid = record["guid"]
    selection = project.viewpoint_part(topic, guid, "selection")
    coloring = project.viewpoint_part(topic, guid, "coloring")
    visibility = project.viewpoint_part(topic, guid, "visibility")
    return Viewpoint(
        guid,
        record.get("index"),
        [component_of(one) for one in selection],
        [
            Coloring(one["color"].lstrip("#"), [component_of(each) for each in one["components"]])
            for one in coloring
        ],
        is_shown(visibility),
        [component_of(one) for one in visibility["exceptions"]],
    )


def comment_of(record: CommentRecord) -> Comment:
    """A comment, by the server's own identifiers."""
    return Comment(
        record["guid"],
        record["comment"],
        record["author"],
        record["date"],
        record.get("modified_author"),
        record.get("modified_date"),
        record.get("viewpoint_guid"),
    )


def topic_of(record: TopicRecord) -> Topic:
    """A topic without its comments and viewpoints, by the server's own identifier."""
    members = {name: record.get(name) for name in PLAIN_MEMBERS}
    return Topic(
        guid=record["guid"],
        title=record["title"],
        number=record["server_assigned_id"],
        labels=list(record.get("labels", [])),
        **members,  # type: ignore[arg-type]
    )


def whole_topic(project: Project, record: TopicRecord) -> Topic:
    """A topic with its comments and viewpoints: two requests, and three for each viewpoint."""
    topic = topic_of(record)
    topic.comments = [comment_of(one) for one in project.comments(record["guid"])]
    topic.viewpoints = [
        viewpoint_of(project, record["guid"], one) for one in project.viewpoints(record["guid"])
    ]
    return topic


def whole_topics(
    project: Project, records: list[TopicRecord], progress: Progress = no_progress
) -> list[Topic]:
    """Topics with all that belongs to them."""
    found: list[Topic] = []
    for record in records:
        found.append(whole_topic(project, record))
        progress(len(found), len(records))
    return found


def rename(topic: Topic, record: TopicRecord, instance: str, project: str) -> None:
    """Gives a topic and its parts the identifiers that they have in files."""
    topic.guid = topic_identifier(instance, project, record)
    topic.labels = own_labels(topic.labels)
    names: dict[str, str] = {}
    for view in topic.viewpoints:
        names[view.guid] = part_identifier(instance, topic.guid, view.guid)
        view.guid = names[view.guid]
    for comment in topic.comments:
        comment.guid = part_identifier(instance, topic.guid, comment.guid, comment.date)
        comment.viewpoint = names.get(comment.viewpoint or "")
