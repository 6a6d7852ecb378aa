"""Writes BCF files of the versions 2.1 and 3.0 (BCF-XML of buildingSMART)."""

from __future__ import annotations

import zipfile
from collections.abc import Sequence
from pathlib import Path
from xml.etree import ElementTree

from .bcf_topics import Comment, Component, Topic, Viewpoint
from .cameras import Camera
from .errors import FileFault

Node = ElementTree.Element
MEMBERS = [
    ("creation_date", "CreationDate"),
    ("creation_author", "CreationAuthor"),
    ("modified_date", "ModifiedDate"),
    ("modified_author", "ModifiedAuthor"),
    ("due_date", "DueDate"),
    ("assigned_to", "AssignedTo"),
    ("stage", "Stage"),
    ("description", "Description"),
]
DEFAULT_TYPE, DEFAULT_STATUS = "Issue", "Open"
"""What 3.0 says of a topic that has none, since it wants both."""
EPOCH = (1980, 1, 1, 0, 0, 0)
"""The date of each part of the zip, so that the same topics make the same bytes."""


def clean(text: object) -> str:
    """The text without the characters that XML 1.0 can't have."""
    return "".join(
        c
        for c in str(text)
        if c in "\t\n\r" or " " <= c <= "\ud7ff" or "\ue000" <= c and c not in "\ufffe\uffff"
    )


def add(parent: Node, tag: str, text: object = None, **attributes: str) -> Node:
    """A new child; a blank text becomes `-`, since 3.0 takes none."""
    node = ElementTree.SubElement(
        parent, tag, {name: clean(value) for name, value in attributes.items()}
    )
    if text is not None:
        cleaned = clean(text)
        node.text = cleaned if cleaned.strip() else "-"
    return node


def add_component(parent: Node, one: Component) -> None:
    """A component with what it has."""
    node = add(parent, "Component", **({"IfcGuid": one.ifc_guid} if one.ifc_guid else {}))
    if one.originating_system:
        add(node, "OriginatingSystem", one.originating_system)
    if one.authoring_tool_id:
        add(node, "AuthoringToolId", one.authoring_tool_id)


def add_camera(parent: Node, camera: Camera, three: bool) -> None:
    """A camera in perspective."""
    node = add(parent, "PerspectiveCamera")
    vectors = (
        ("CameraViewPoint", camera.eye),
        ("CameraDirection", camera.direction),
        ("CameraUpVector", camera.up),
    )
    for tag, vector in vectors:
        point = add(node, tag)
        for axis, number in zip("XYZ", vector, strict=True):
            add(point, axis, f"{number:.6f}")
    add(node, "FieldOfView", f"{camera.field_of_view:g}")
    if three:
        add(node, "AspectRatio", f"{camera.aspect_ratio:.6f}")


def viewpoint_xml(view: Viewpoint, camera: Camera, three: bool) -> Node:
    """The file of a viewpoint."""
    root = ElementTree.Element("VisualizationInfo", Guid=view.guid)
    parts = add(root, "Components")
    if view.selection:
        selection = add(parts, "Selection")
        for one in view.selection:
            add_component(selection, one)
    shown = "true" if view.default_visibility else "false"
    visibility = add(parts, "Visibility", DefaultVisibility=shown)
    if view.exceptions:
        exceptions = add(visibility, "Exceptions")
        for one in view.exceptions:
            add_component(exceptions, one)
    colored = [one for one in view.coloring if one.components]
    coloring = add(parts, "Coloring") if colored else parts
    for group in colored:
        color = add(coloring, "Color", Color=group.color.lstrip("#"))
        inner = add(color, "Components") if three else color
        for one in group.components:
            add_component(inner, one)
    add_camera(root, camera, three)
    return root


def add_comment(parent: Node, one: Comment) -> None:
    """A comment."""
    node = add(parent, "Comment", Guid=one.guid)
    add(node, "Date", one.date)
    add(node, "Author", one.author)
    add(node, "Comment", one.text)
    if one.viewpoint:
        add(node, "Viewpoint", Guid=one.viewpoint)
    if one.modified_date:
        add(node, "ModifiedDate", one.modified_date)
    if one.modified_author:
        add(node, "ModifiedAuthor", one.modified_author)


def add_viewpoint_entry(parent: Node, tag: str, view: Viewpoint) -> None:
    """The line of a markup that names a viewpoint's files."""
    node = add(parent, tag, Guid=view.guid)
    add(node, "Viewpoint", f"{view.guid}.bcfv")
    if view.snapshot:
        add(node, "Snapshot", f"{view.guid}.png")
    if view.index is not None:
        add(node, "Index", view.index)


def topic_attributes(topic: Topic, three: bool) -> dict[str, str]:
    """The attributes of a topic; 2.1 has no number and doesn't want a type and a status."""
    found = {"Guid": topic.guid}
    kind, state = clean(topic.topic_type or "").strip(), clean(topic.topic_status or "").strip()
    if three and topic.number:
        found["ServerAssignedId"] = topic.number
    if kind or three:
        found["TopicType"] = topic.topic_type or "" if kind else DEFAULT_TYPE
    if state or three:
        found["TopicStatus"] = topic.topic_status or "" if state else DEFAULT_STATUS
    return found


def markup_xml(topic: Topic, three: bool) -> Node:
    """The file of a topic, with its comments and the list of its viewpoints."""
    root = ElementTree.Element("Markup")
    node = add(root, "Topic", **topic_attributes(topic, three))
    add(node, "Title", topic.title)
    if topic.priority is not None:
        add(node, "Priority", topic.priority)
    if topic.index is not None:
        add(node, "Index", topic.index)
    labels = add(node, "Labels") if three and topic.labels else node
    for label in topic.labels:
        add(labels, "Label" if three else "Labels", label)
    for member, tag in MEMBERS:
        value = getattr(topic, member)
        if value is not None:
            add(node, tag, value)
    comments = add(node, "Comments") if three and topic.comments else root
    for comment in topic.comments:
        add_comment(comments, comment)
    views = add(node, "Viewpoints") if three and topic.viewpoints else root
    for view in topic.viewpoints:
        add_viewpoint_entry(views, "ViewPoint" if three else "Viewpoints", view)
    return root


def extensions_xml(topics: Sequence[Topic]) -> Node:
    """The words that the topics use, as 3.0 wants them listed."""
    root = ElementTree.Element("Extensions")
    lists: list[tuple[str, str, set[str | None]]] = [
        ("TopicTypes", "TopicType", {DEFAULT_TYPE, *(one.topic_type for one in topics)}),
        ("TopicStatuses", "TopicStatus", {DEFAULT_STATUS, *(one.topic_status for one in topics)}),
        ("Priorities", "Priority", {one.priority for one in topics}),
        ("TopicLabels", "TopicLabel", {label for one in topics for label in one.labels}),
        ("Users", "User", {one.assigned_to for one in topics}),
        ("SnippetTypes", "SnippetType", set()),
        ("Stages", "Stage", {one.stage for one in topics}),
    ]
    for group, single, words in lists:
        node = add(root, group)
        for word in sorted(clean(word) for word in words if word and clean(word).strip()):
            add(node, single, word)
    return root


def project_xml(identifier: str, name: str, three: bool) -> Node:
    """The file of the project."""
    root = ElementTree.Element("ProjectInfo" if three else "ProjectExtension")
    add(add(root, "Project", ProjectId=identifier), "Name", name)
    if not three:
        ElementTree.SubElement(root, "ExtensionSchema")
    return root


def version_xml(three: bool) -> Node:
    """The file that says which version of BCF it is."""
    root = ElementTree.Element("Version", VersionId="3.0" if three else "2.1")
    if not three:
        add(root, "DetailedVersion", "2.1")
    return root


class Zip:
    """The parts of a BCF file as they are written."""

    def __init__(self, target: zipfile.ZipFile) -> None:
        self.target = target

    def put(self, name: str, data: bytes) -> None:
        """A part of the file."""
        info = zipfile.ZipInfo(name, EPOCH)
        info.compress_type = zipfile.ZIP_STORED if name.endswith(".png") else zipfile.ZIP_DEFLATED
        info.external_attr = 0o644 << 16
        self.target.writestr(info, data)

    def put_xml(self, name: str, root: Node) -> None:
        """A part that is XML."""
        head = b'<?xml version="1.0" encoding="UTF-8"?>\n'
        self.put(name, head + ElementTree.tostring(root, "utf-8"))


def write_bcf(
    target: Path,
    topics: Sequence[Topic],
    cameras: dict[str, Camera],
    project: tuple[str, str],
    version: str,
) -> None:
    """Writes topics as a BCF file; `cameras` has one for the identifier of each viewpoint.

    The file appears whole or not at all.
    """
    three = version == "3.0"
    part = target.with_name(target.name + ".part")
    try:
        with zipfile.ZipFile(part, "w") as opened:
            out = Zip(opened)
            out.put_xml("bcf.version", version_xml(three))
            out.put_xml("project.bcfp", project_xml(*project, three))
            if three:
                out.put_xml("extensions.xml", extensions_xml(topics))
            for topic in topics:
                out.put_xml(f"{topic.guid}/markup.bcf", markup_xml(topic, three))
                for view in topic.viewpoints:
                    name = f"{topic.guid}/{view.guid}"
                    out.put_xml(f"{name}.bcfv", viewpoint_xml(view, cameras[view.guid], three))
                    if view.snapshot:
                        out.put(f"{name}.png", view.snapshot)
        part.replace(target)
    except OSError as fault:
        part.unlink(missing_ok=True)
        raise FileFault(f"{target}: {fault.strerror or fault}") from fault
