"""`report`: clashes and topics as one HTML file."""

from __future__ import annotations

from datetime import UTC, datetime
from pathlib import Path

from ..bcf_export import Scene, camera_of, picture_of, whole_topics
from ..bcf_topics import Component, Topic, Viewpoint
from ..compare import Difference, elements_of
from ..console import counted
from ..context import Context
from ..errors import ExitStatus, FileFault
from ..records import Clash, Version
from ..report import Card, Report, report_html, topic_card
from ..tables import GROUPS, Elements, end_json, grouped, rule_words
from .clashes import Found, find, with_base

MOST_GONE = 200


def element_words(clash: Clash, end: str, elements: Elements) -> str:
    """An element in one line."""
    shown = end_json(clash["a"] if end == "a" else clash["b"], elements)
    storey = f", {shown['storey']}" if shown["storey"] else ""
    kind, name = shown["class"] or "(not there any more)", shown["name"] or ""
    return f"{kind} {name} ({shown['model']}{storey}) {shown['guid']}"


def clash_picture(clash: Clash, scene: Scene) -> bytes | None:
    """A picture of both elements."""
    both = [Component(clash["a"]["guid"]), Component(clash["b"]["guid"])]
    view = Viewpoint("", selection=both)
    return picture_of(view, scene, camera_of(view, scene))


def clash_cards(context: Context, version: Version, found: Found) -> list[Card]:
    """The clashes that are shown."""
    elements, scene = elements_of(version), Scene.of(version)
    wanted = list(zip(found.places, found.clashes, strict=True))[: context.words.most]
    cards: list[Card] = []
    with context.console.progress("pictures") as progress:
        for place, clash in wanted:
            lines = [element_words(clash, end, elements) for end in ("a", "b")]
            lines.append(f"rule {rule_words(clash['rule'], version['rules'])}")
            picture = clash_picture(clash, scene)
            title = f"Clash {place} of version {version['version']}"
            cards.append(Card(title, lines, found.changes is not None, picture=picture))
            progress(len(cards), len(wanted))
    return cards


def topic_cards(context: Context, version: Version) -> list[Card]:
    """The topics, each with the picture of its first viewpoint that shows something."""
    with context.console.progress("topics") as progress:
        topics: list[Topic] = whole_topics(context.project, context.project.topics(), progress)
    scene = Scene.of(version)
    cards: list[Card] = []
    for topic in topics:
        pictures = (picture_of(view, scene, camera_of(view, scene)) for view in topic.viewpoints)
        cards.append(topic_card(topic, next((one for one in pictures if one), None)))
    return cards


def summary(
    version: Version, total: int, changes: Difference | None, base: int | None
) -> list[tuple[str, str]]:
    """The first lines."""
    models = [f"{one['name']} ({len(one['elements'])} elements)" for one in version["models"]]
    rows = [("Models", ", ".join(models) or "none"), ("Rules", str(len(version["rules"])))]
    rows.append(("Clashes", str(total)))
    if changes is not None:
        rows.append((f"New since version {base}", str(len(changes.new))))
        rows.append((f"Gone since version {base}", str(len(changes.gone))))
    return rows


def run(context: Context) -> int:
    """Writes the report."""
    found = find(context)
    version = context.project.version(found.version)
    elements = elements_of(version)
    clashes = found.clashes
    groups = [(by, grouped(clashes, by, elements, version["rules"])) for by in GROUPS]
    cards = clash_cards(context, version, found)
    gone = found.changes.gone[:MOST_GONE] if found.changes else []
    before = with_base(context, found, elements)
    now = datetime.now(UTC).strftime("%Y-%m-%d %H:%M UTC")
    report = Report(
        f"{context.project.name}, version {found.version}",
        f"{context.settings.url}, {now}",
        summary(version, found.total, found.changes, found.base),
        groups,
        cards,
        len(clashes) - len(cards),
        [f"{element_words(one, 'a', before)} - {element_words(one, 'b', before)}" for one in gone],
        [] if context.words.no_topics else topic_cards(context, version),
    )
    target = Path(context.words.file)
    try:
        target.write_text(report_html(report), "utf-8")
    except OSError as fault:
        raise FileFault(f"{target}: {fault.strerror}") from fault
    size = target.stat().st_size
    parts = counted(len(cards), "clash"), counted(len(report.topics), "topic")
    context.console.say(f"{target}: {', '.join(parts)}, {size // 1024} KiB")
    context.console.give(
        {"file": str(target), "clashes": len(cards), "topics": len(report.topics), "bytes": size}
    )
    return ExitStatus.DONE
