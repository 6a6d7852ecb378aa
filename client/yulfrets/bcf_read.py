"""Reads BCF files of the versions 2.1 and 3.0 (BCF-XML of buildingSMART) that any program wrote."""

from __future__ import annotations

import codecs
import re
import uuid
import zipfile
import zlib
from collections import Counter
from dataclasses import dataclass, field
from pathlib import Path
from xml.etree import ElementTree

from .bcf_topics import Coloring, Comment, Component, Topic, Viewpoint
from .errors import FileFault, Refused

Node = ElementTree.Element
MOST_PARTS, MOST_XML, MOST_PICTURE = 200_000, 32 * 2**20, 32 * 2**20
BROKEN = (zipfile.BadZipFile, zlib.error, EOFError, NotImplementedError, RuntimeError)
"""What the library raises for a zip that is none, is cut or is encrypted."""
GUID = re.compile(r"[0-9A-Za-z_$]{22}")
COLOR = re.compile(r"#?([0-9A-Fa-f]{6}|[0-9A-Fa-f]{8})")
NOT_KEPT = {
    "Header": "lists of files",
    "ReferenceLink": "links",
    "BimSnippet": "snippets",
    "DocumentReference": "documents",
    "RelatedTopic": "related topics",
    "PerspectiveCamera": "cameras",
    "OrthogonalCamera": "cameras",
    "Line": "lines",
    "ClippingPlane": "clipping planes",
    "Bitmap": "bitmaps",
    "ViewSetupHints": "setup hints",
    "Snapshot": "snapshots",
}
"""What the server has no place for, by the tag that stands for one of it."""


@dataclass
class BcfFile:
    """A BCF file as it was read, and how many things of each kind aren't carried on."""

    version: str
    topics: list[Topic]
    not_kept: Counter[str] = field(default_factory=Counter)


def local(tag: str) -> str:
    """A tag without its namespace."""
    return tag.rsplit("}", 1)[-1]


def children(node: Node | None, tag: str) -> list[Node]:
    """The children of that tag."""
    return [] if node is None else [one for one in node if local(one.tag) == tag]


def child(node: Node | None, tag: str) -> Node | None:
    """The first child of that tag."""
    found = children(node, tag)
    return found[0] if found else None


def text(node: Node, tag: str) -> str | None:
    """The text of a child, None where it is absent or blank."""
    found = child(node, tag)
    value = (found.text or "") if found is not None else ""
    return value if value.strip() else None


def number(node: Node, tag: str) -> int | None:
    """The whole number of a child, None where it is none."""
    value = (text(node, tag) or "").strip()
    return int(value) if re.fullmatch(r"[+-]?[0-9]{1,10}", value) else None


def identifier(text: str) -> str:
    """An identifier as the server spells one, where it is one."""
    try:
        return str(uuid.UUID(text.strip()))
    except ValueError:
        return text.strip().lower()


def in_utf_8(data: bytes) -> bytes:
    """XML of UTF-16 in UTF-8, so that what it declares can be seen; other XML as it is."""
    if not data.startswith((codecs.BOM_UTF16_LE, codecs.BOM_UTF16_BE)):
        return data
    words = data.decode("utf-16", "replace")
    return re.sub(r"encoding=[\"'][^\"']*[\"']", 'encoding="utf-8"', words, count=1).encode()


class Reader:
    """The parts of one BCF file."""

    def __init__(self, path: Path, files: zipfile.ZipFile) -> None:
        self.path, self.files = path, files
        entries = files.infolist()
        if len(entries) > MOST_PARTS:
            raise Refused(f"{path}: it has {len(entries)} parts", "split it", parts=len(entries))
        # some programs write backslashes
        self.parts = {one.filename.replace("\\", "/"): one for one in entries}
        self.not_kept: Counter[str] = Counter()

    def data(self, name: str, most: int) -> bytes | None:
        """A part's bytes, None where it isn't there."""
        info = self.parts.get(name)
        if info is None:
            return None
        if info.file_size > most:
            raise Refused(f"{self.path}: {name} has {info.file_size:,} bytes", f"at most {most:,}")
        with self.files.open(info) as part:
            return part.read(most + 1)

    def xml(self, name: str) -> Node | None:
        """A part as XML; one with a document type is refused, since none has to have it."""
        data = self.data(name, MOST_XML)
        if data is None:
            return None
        data = in_utf_8(data)
        if b"<!DOCTYPE" in data or b"<!ENTITY" in data or b"\0" in data:
            raise Refused(f"{self.path}: {name} declares a document type", "remove it")
        try:
            return ElementTree.fromstring(data)
        except ElementTree.ParseError as fault:
            raise Refused(f"{self.path}: {name} is no XML: {fault}", "export it anew") from fault

    def version(self) -> str:
        """The version of BCF, refused where it is another than 2.1 and 3.0."""
        root = self.xml("bcf.version")
        if root is None:
            raise Refused(f"{self.path}: it is no BCF file, bcf.version is missing", "check it")
        found = root.get("VersionId", "")
        if not found.startswith(("2.1", "3.0")):
            raise Refused(
                f"{self.path}: BCF {found or '(unknown)'} isn't read", "export it as 2.1 or 3.0"
            )
        return found[:3]

    def count(self, root: Node) -> None:
        """Counts what the server has no place for."""
        for node in root.iter():
            kind = NOT_KEPT.get(local(node.tag))
            if kind:
                self.not_kept[kind] += 1

    def component(self, node: Node) -> Component | None:
        """A component, None where it names nothing that could be kept."""
        guid: str | None = node.get("IfcGuid", "").strip()
        if guid and not GUID.fullmatch(guid):
            self.not_kept["identifiers that aren't IFC's"] += 1
        guid = guid if guid and GUID.fullmatch(guid) else None
        made = Component(guid, text(node, "OriginatingSystem"), text(node, "AuthoringToolId"))
        return made if made != Component() else None

    def components(self, parent: Node | None) -> list[Component]:
        """The components below a node."""
        found = [self.component(one) for one in children(parent, "Component")]
        return [one for one in found if one is not None]

    def coloring(self, parent: Node | None) -> list[Coloring]:
        """Colors with their components, which 3.0 wraps once more."""
        found: list[Coloring] = []
        for node in children(parent, "Color"):
            color = COLOR.fullmatch(node.get("Color", "").strip())
            inner = child(node, "Components")
            components = self.components(node if inner is None else inner)
            if color and components:
                found.append(Coloring(color[1], components))
            else:
                self.not_kept["colors"] += 1
        return found

    def viewpoint(self, folder: str, entry: Node) -> Viewpoint | None:
        """A viewpoint that a markup names, None where its file is missing."""
        name = text(entry, "Viewpoint") or "viewpoint.bcfv"
        root = self.xml(f"{folder}/{name.strip()}")
        if root is None:
            self.not_kept["viewpoints without a file"] += 1
            return None
        self.count(root)
        parts = child(root, "Components")
        visibility = child(parts, "Visibility")
        shown = "true" if visibility is None else visibility.get("DefaultVisibility", "false")
        return Viewpoint(
            identifier(entry.get("Guid") or root.get("Guid") or ""),
            number(entry, "Index"),
            self.components(child(parts, "Selection")),
            self.coloring(child(parts, "Coloring")),
            shown.strip() in ("true", "1"),
            self.components(child(visibility, "Exceptions")),
        )

    def comment(self, node: Node) -> Comment:
        """A comment; it may be blank where it has a viewpoint."""
        view = child(node, "Viewpoint")
        return Comment(
            node.get("Guid", "").lower(),
            text(node, "Comment") or "",
            text(node, "Author") or "",
            text(node, "Date") or "",
            text(node, "ModifiedAuthor"),
            text(node, "ModifiedDate"),
            identifier(view.get("Guid", "")) if view is not None else None,
        )

    def topic(self, folder: str) -> Topic | None:
        """The topic of a folder, with its comments and viewpoints."""
        root = self.xml(f"{folder}/markup.bcf")
        node = child(root, "Topic")
        if root is None or node is None:
            self.not_kept["markups without a topic"] += 1
            return None
        self.count(root)
        three = child(node, "Comments"), child(node, "Viewpoints")
        comments = children(root, "Comment") + children(three[0], "Comment")
        entries = children(root, "Viewpoints") + children(three[1], "ViewPoint")
        views = [self.viewpoint(folder, one) for one in entries]
        labels = [(one.text or "").strip() for one in children(node, "Labels")]
        labels += [(one.text or "") for one in children(child(node, "Labels"), "Label")]
        return Topic(
            guid=identifier(node.get("Guid") or folder),
            title=text(node, "Title") or "",
            creation_author=text(node, "CreationAuthor") or "",
            creation_date=text(node, "CreationDate") or "",
            number=node.get("ServerAssignedId"),
            modified_author=text(node, "ModifiedAuthor"),
            modified_date=text(node, "ModifiedDate"),
            topic_type=node.get("TopicType") or None,
            topic_status=node.get("TopicStatus") or None,
            priority=text(node, "Priority"),
            assigned_to=text(node, "AssignedTo"),
            stage=text(node, "Stage"),
            description=text(node, "Description"),
            due_date=text(node, "DueDate"),
            index=number(node, "Index"),
            labels=[label for label in labels if label.strip()],
            comments=[self.comment(one) for one in comments],
            viewpoints=[one for one in views if one is not None],
        )


def read_bcf(path: Path) -> BcfFile:
    """The topics of a BCF file in the order in which they stand in it."""
    try:
        with zipfile.ZipFile(path) as files:
            reader = Reader(path, files)
            version = reader.version()
            folders = [
                name.rsplit("/", 1)[0]
                for name in reader.parts
                if name.lower().endswith("/markup.bcf")
            ]
            found = [reader.topic(folder) for folder in folders]
            return BcfFile(version, [one for one in found if one], reader.not_kept)
    except OSError as fault:
        raise FileFault(f"{path}: {fault.strerror or fault}") from fault
    except BROKEN as fault:
        raise Refused(
            f"{path}: it is no BCF file: {fault}", "check it, or export it anew"
        ) from fault
