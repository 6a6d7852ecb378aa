"""`topics` lists topics, `topics make` makes topics of clashes."""

from __future__ import annotations

from ..compare import elements_of
from ..console import counted
from ..context import Context
from ..errors import ExitStatus, UsageFault
from ..records import Clash, TopicRecord, Version
from ..tables import TOPIC_HEAD, Elements, end_json, rule_words, topic_rows
from .clashes import find, write_files


def chosen(context: Context, topics: list[TopicRecord]) -> list[TopicRecord]:
    """The topics that the filters let through."""
    words = context.words
    filters = (
        ("topic_status", words.status),
        ("topic_type", words.type),
        ("assigned_to", words.assigned_to),
    )
    for member, wanted in filters:
        if wanted is not None:
            topics = [
                one for one in topics if str(one.get(member, "")).casefold() == wanted.casefold()
            ]
    return topics


def run(context: Context) -> int:
    """Lists the topics."""
    topics = chosen(context, context.project.topics())
    write_files(context, TOPIC_HEAD, topic_rows(topics), "topics")
    if context.words.csv != "-":
        context.console.say(counted(len(topics), "topic"))
    context.console.give(topics)
    return ExitStatus.DONE


def mark_of(clash: Clash) -> str:
    """What the server calls a clash; the description keeps it, so that its topic is found again."""
    return f"Clash of {clash['a']['guid']} and {clash['b']['guid']}"


def has_topic(clash: Clash, topics: list[TopicRecord]) -> bool:
    """Whether a topic has been made of a clash."""
    mark = mark_of(clash)
    return any(mark in one["title"] or mark in one.get("description", "") for one in topics)


def title_of(clash: Clash, elements: Elements) -> str:
    """A clash in few words: its elements by class and name, and their storeys."""
    shown = [end_json(clash["a"], elements), end_json(clash["b"], elements)]
    parts = [f"{(one['class'] or '').removeprefix('IFC')} {one['name'] or ''}" for one in shown]
    storeys = list(dict.fromkeys(one["storey"] for one in shown if one["storey"]))
    words = " / ".join(part.strip()[:100] for part in parts)
    return words + (f" ({' / '.join(storey[:100] for storey in storeys)})" if storeys else "")


def description(clash: Clash, elements: Elements, version: Version) -> str:
    """A clash in words: its elements with class, name, model and storey, and its rule."""
    parts = []
    for end in (clash["a"], clash["b"]):
        shown = end_json(end, elements)
        storey = f", {shown['storey'][:100]}" if shown["storey"] else ""
        name = (shown["name"] or "")[:100]
        parts.append(f"{shown['class']} {name} (model {shown['model']}{storey})")
    rule = rule_words(clash["rule"], version["rules"])[:500]
    where = f"rule {rule}; version {version['version']}"
    return f"{mark_of(clash)}: {parts[0]} and {parts[1]}; {where}"


def make(
    context: Context, version: Version, elements: Elements, place: int, clash: Clash
) -> TopicRecord:
    """Makes the topic and its viewpoint, and then says in words what clashes."""
    made = context.project.topic_of_clash(version["version"], place)
    body = {
        "title": title_of(clash, elements),
        "topic_type": made.get("topic_type"),
        "topic_status": made.get("topic_status"),
        "description": description(clash, elements, version),
        "assigned_to": context.words.assigned_to,
        "priority": context.words.priority,
    }
    replaced: TopicRecord = context.project.put(f"/topics/{made['guid']}", body)
    return replaced


def run_make(context: Context) -> int:
    """Makes a topic of each clash that is asked for and has none yet."""
    words = context.words
    found = find(context)
    wanted = list(zip(found.places, found.clashes, strict=True))
    if words.places:
        over = [place for place in words.places if place >= found.total]
        if over:
            raise UsageFault(
                f"version {found.version} has no clash at place {over[0]}",
                f"it has {found.total}, counted from 0: yulfrets clashes",
            )
        wanted = [pair for pair in wanted if pair[0] in set(words.places)]
    elif not words.new and words.since is None and not words.every:
        raise UsageFault("which clashes?", "give their places, or --new, or --every")
    topics = context.project.topics()
    fresh = [pair for pair in wanted if not has_topic(pair[1], topics)]
    there = len(wanted) - len(fresh)
    if len(fresh) > words.most:
        raise UsageFault(
            f"{counted(len(fresh), 'topic')} would be made, more than {words.most}",
            "narrow it down, or allow more: --most N",
        )
    version = context.project.version(found.version)
    elements = elements_of(version)
    made: list[TopicRecord] = []
    with context.console.progress("topics") as progress:
        for place, clash in fresh:
            made.append(make(context, version, elements, place, clash))
            progress(len(made), len(fresh))
    context.console.say(
        f"version {found.version}: {counted(len(made), 'topic')} made, {there} there before"
    )
    context.console.give({"version": found.version, "made": made, "there": there})
    return ExitStatus.DONE
