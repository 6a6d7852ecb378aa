"""Reads a BCF file by the format's description alone, and refuses what isn't as it says.

It shares nothing with the client: other parser, other structures. What it gives are plain values.
"""

from __future__ import annotations

import re
import zipfile
from typing import Any
from xml.dom import minidom

UUID = re.compile(r"[a-f0-9]{8}(-[a-f0-9]{4}){3}-[a-f0-9]{12}")
PNG = b"\x89PNG\r\n\x1a\n"


def elements(node: Any, name: str | None = None) -> list[Any]:
    """The child elements, all or those of a name."""
    found = [one for one in node.childNodes if one.nodeType == one.ELEMENT_NODE]
    return [one for one in found if name is None or one.tagName == name]


def text(node: Any, name: str) -> str | None:
    """The text of the one child of that name."""
    found = elements(node, name)
    assert len(found) <= 1, f"{name} stands {len(found)} times"
    if not found:
        return None
    return "".join(one.data for one in found[0].childNodes)


def guid(node: Any) -> str:
    """The identifier of an element."""
    value = str(node.getAttribute("Guid"))
    assert UUID.fullmatch(value), value
    return value


def components(node: Any) -> list[tuple[str, str | None, str | None]]:
    """Components as triples."""
    return [
        (one.getAttribute("IfcGuid"), text(one, "OriginatingSystem"), text(one, "AuthoringToolId"))
        for one in elements(node, "Component")
    ]


def vector(node: Any, name: str) -> tuple[float, ...]:
    """A point or a direction."""
    (found,) = elements(node, name)
    return tuple(float(text(found, axis) or "nan") for axis in "XYZ")


def camera(root: Any, three: bool) -> dict[str, Any]:
    """The camera in perspective."""
    (node,) = elements(root, "PerspectiveCamera")
    found: dict[str, Any] = {
        "eye": vector(node, "CameraViewPoint"),
        "direction": vector(node, "CameraDirection"),
        "up": vector(node, "CameraUpVector"),
        "field": float(text(node, "FieldOfView") or "nan"),
    }
    if three:
        found["aspect"] = float(text(node, "AspectRatio") or "nan")
    return found


def viewpoint(data: bytes, wanted: str, three: bool) -> dict[str, Any]:
    """The file of a viewpoint."""
    root = minidom.parseString(data).documentElement
    assert root.tagName == "VisualizationInfo" and guid(root) == wanted
    (parts,) = elements(root, "Components")
    (visible,) = elements(parts, "Visibility")
    colors = []
    for node in elements(parts, "Coloring"):
        for color in elements(node, "Color"):
            inner = elements(color, "Components")[0] if three else color
            colors.append((color.getAttribute("Color").upper(), components(inner)))
    selections = elements(parts, "Selection")
    exceptions = elements(visible, "Exceptions")
    return {
        "selection": components(selections[0]) if selections else [],
        "coloring": colors,
        "default": visible.getAttribute("DefaultVisibility") == "true",
        "exceptions": components(exceptions[0]) if exceptions else [],
        "camera": camera(root, three),
    }


def comment(node: Any, places: dict[str, int]) -> dict[str, Any]:
    """A comment; its viewpoint by its place among the topic's."""
    views = elements(node, "Viewpoint")
    return {
        "guid": guid(node),
        "text": text(node, "Comment"),
        "author": text(node, "Author"),
        "date": text(node, "Date"),
        "modified": (text(node, "ModifiedDate"), text(node, "ModifiedAuthor")),
        "viewpoint": places[guid(views[0])] if views else None,
    }


def topic(files: zipfile.ZipFile, folder: str, three: bool) -> dict[str, Any]:
    """A topic with all that it names."""
    root = minidom.parseString(files.read(f"{folder}/markup.bcf")).documentElement
    (node,) = elements(root, "Topic")
    assert guid(node) == folder
    holder = elements(node, "Viewpoints")[:1] if three else [root]
    entries = [e for h in holder for e in elements(h, "ViewPoint" if three else "Viewpoints")]
    views = []
    for entry in entries:
        name = text(entry, "Viewpoint")
        view = viewpoint(files.read(f"{folder}/{name}"), guid(entry), three)
        picture = text(entry, "Snapshot")
        view["picture"] = files.read(f"{folder}/{picture}") if picture else None
        assert view["picture"] is None or view["picture"].startswith(PNG)
        index = text(entry, "Index")
        views.append(view | {"guid": guid(entry), "index": index and int(index)})
    places = {view["guid"]: place for place, view in enumerate(views)}
    talks = elements(node, "Comments")[:1] if three else [root]
    if three:
        labels = [one.firstChild.data for h in elements(node, "Labels") for one in elements(h)]
    else:
        labels = [one.firstChild.data for one in elements(node, "Labels")]
    members = ["Title", "Priority", "Index", "CreationDate", "CreationAuthor", "ModifiedDate"]
    members += ["ModifiedAuthor", "DueDate", "AssignedTo", "Stage", "Description"]
    return {
        "guid": folder,
        "type": node.getAttribute("TopicType"),
        "status": node.getAttribute("TopicStatus"),
        **{member: text(node, member) for member in members},
        "labels": labels,
        "comments": [comment(one, places) for h in talks for one in elements(h, "Comment")],
        "viewpoints": views,
    }


def read(path: Any) -> dict[str, Any]:
    """A whole file: its version, its project and its topics in their order."""
    with zipfile.ZipFile(path) as files:
        assert files.testzip() is None
        version = minidom.parseString(files.read("bcf.version")).documentElement
        number = version.getAttribute("VersionId")
        assert number in ("2.1", "3.0"), number
        three = number == "3.0"
        about = minidom.parseString(files.read("project.bcfp")).documentElement
        (project,) = elements(about, "Project")
        names = files.namelist()
        assert len(names) == len(set(names))
        folders = [name.split("/")[0] for name in names if name.endswith("/markup.bcf")]
        topics = [topic(files, folder, three) for folder in folders]
        named = {"bcf.version", "project.bcfp"} | ({"extensions.xml"} if three else set())
        for one in topics:
            named.add(f"{one['guid']}/markup.bcf")
            for view in one["viewpoints"]:
                named.add(f"{one['guid']}/{view['guid']}.bcfv")
                if view["picture"]:
                    named.add(f"{one['guid']}/{view['guid']}.png")
        assert set(names) == named, set(names) ^ named
        return {"version": number, "project": text(project, "Name"), "topics": topics}
