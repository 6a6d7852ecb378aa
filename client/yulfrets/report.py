"""A report as one HTML file, with its pictures in it, that can be mailed."""

from __future__ import annotations

import base64
from collections.abc import Sequence
from dataclasses import dataclass, field
from html import escape

from .bcf_topics import Topic

STYLE = """
body { font: 15px/1.45 system-ui, sans-serif; color: #222; margin: 2em auto; max-width: 62em;
  padding: 0 1em; }
h1 { font-size: 1.6em; margin-bottom: 0; } h2 { font-size: 1.2em; margin-top: 2em; }
p.about { color: #666; margin-top: .2em; }
table { border-collapse: collapse; margin: .6em 0; } th, td { text-align: left;
  padding: .25em .8em .25em 0; border-bottom: 1px solid #ddd; vertical-align: top; }
td.number { text-align: right; font-variant-numeric: tabular-nums; }
section.card { border: 1px solid #ddd; border-radius: 6px; padding: .8em 1em; margin: 1em 0;
  display: flex; gap: 1.2em; break-inside: avoid; }
section.card div { flex: 1; min-width: 0; overflow-wrap: anywhere; }
section.card h3 { margin: 0 0 .3em; font-size: 1em; }
section.card img { width: 300px; height: 225px; border: 1px solid #eee; }
.new { color: #a32c20; font-weight: 600; } .quiet { color: #666; }
blockquote { margin: .5em 0; padding-left: .8em; border-left: 3px solid #ccc;
  white-space: pre-wrap; }
@media print { body { margin: 0; max-width: none; } }
@media (max-width: 40em) { section.card { flex-direction: column; } }
"""


@dataclass
class Card:
    """A clash or a topic: its title, lines about it, comments, a picture."""

    title: str
    lines: list[str]
    is_new: bool = False
    comments: list[tuple[str, str]] = field(default_factory=list)
    picture: bytes | None = None


@dataclass
class Report:
    """What a report says."""

    title: str
    about: str
    summary: list[tuple[str, str]]
    groups: list[tuple[str, list[tuple[str, int]]]]
    clashes: list[Card]
    left_out: int
    gone: list[str]
    topics: list[Card]


def picture_html(data: bytes | None, title: str) -> str:
    """A picture within the file."""
    if data is None:
        return ""
    text = base64.b64encode(data).decode("ascii")
    return f'<img alt="{escape(title)}" src="data:image/png;base64,{text}">'


def card_html(card: Card) -> str:
    """A clash or a topic with its picture."""
    new = '<span class="new">new</span> ' if card.is_new else ""
    lines = "<br>".join(escape(line) for line in card.lines)
    comments = "".join(
        f'<blockquote><span class="quiet">{escape(who)}</span>\n{escape(text)}</blockquote>'
        for who, text in card.comments
    )
    words = f"<div><h3>{new}{escape(card.title)}</h3>{lines}{comments}</div>"
    return f'<section class="card">{picture_html(card.picture, card.title)}{words}</section>\n'


def table_html(head: Sequence[str], rows: Sequence[tuple[str, str | int]]) -> str:
    """A table of two columns."""
    lines = "".join(
        f"<tr><td>{escape(name)}</td>"
        f'<td{" class=number" if isinstance(value, int) else ""}>{escape(str(value))}</td></tr>'
        for name, value in rows
    )
    names = "".join(f"<th>{escape(name)}</th>" for name in head)
    titles = f"<tr>{names}</tr>" if head else ""
    return f"<table>{titles}{lines}</table>\n"


def report_html(report: Report) -> str:
    """The whole file: no script, no other file."""
    parts = [
        f"<h1>{escape(report.title)}</h1>\n<p class=about>{escape(report.about)}</p>\n",
        table_html([], report.summary),
    ]
    for by, rows in report.groups:
        if rows:
            parts.append(f"<h2>Clashes by {escape(by)}</h2>\n")
            parts.append(table_html([by, "clashes"], rows))
    parts.append(f"<h2>Clashes</h2>\n{''.join(map(card_html, report.clashes)) or '<p>None.</p>'}")
    if report.left_out:
        parts.append(f"<p class=quiet>{report.left_out} more aren't shown.</p>\n")
    if report.gone:
        items = "".join(f"<li>{escape(line)}</li>" for line in report.gone)
        parts.append(f"<h2>Gone</h2>\n<ul>{items}</ul>\n")
    parts.append(f"<h2>Topics</h2>\n{''.join(map(card_html, report.topics)) or '<p>None.</p>'}")
    return (
        '<!DOCTYPE html>\n<html lang="en">\n<meta charset="utf-8">\n'
        '<meta name="viewport" content="width=device-width">\n'
        f"<title>{escape(report.title)}</title>\n<style>{STYLE}</style>\n" + "".join(parts)
    )


def topic_card(topic: Topic, picture: bytes | None) -> Card:
    """A topic with what there is to know about it."""
    facts = [topic.topic_type, topic.topic_status, topic.priority]
    lines = [", ".join(fact for fact in facts if fact)]
    lines += [f"for {topic.assigned_to}"] if topic.assigned_to else []
    lines += [f"due {topic.due_date}"] if topic.due_date else []
    lines += [f"by {topic.creation_author}, {topic.creation_date}"]
    lines += [topic.description] if topic.description else []
    comments = [(f"{one.author}, {one.date}", one.text) for one in topic.comments]
    number = f"{topic.number}. " if topic.number else ""
    return Card(
        number + topic.title, [one for one in lines if one], comments=comments, picture=picture
    )
