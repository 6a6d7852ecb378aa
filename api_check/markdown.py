"""Sections and tables of a Markdown file."""

from __future__ import annotations

import re
from dataclasses import dataclass, field


@dataclass
class Table:
    """A table: the cells of its first row, and those of the others."""

    head: list[str]
    rows: list[list[str]] = field(default_factory=list)


@dataclass
class Section:
    """The text and the tables below a heading."""

    title: str
    text: str = ""
    tables: list[Table] = field(default_factory=list)


def _cells(line: str) -> list[str]:
    return [it.strip() for it in line.strip().strip("|").split("|")]


def _unwrapped(text: str) -> str:
    """The text with each paragraph and each item of a list on a line of its own."""
    lines: list[str] = []
    for line in text.splitlines():
        begins = not line.strip() or re.match(r"\s*- ", line) or line.startswith("    ")
        if begins or not lines or not lines[-1].strip():
            lines.append(line)
        else:
            lines[-1] += " " + line.strip()
    return "\n".join(lines)


def read_sections(text: str) -> list[Section]:
    """The sections of a file, in their order. The text of a section leaves its tables out."""
    sections = [Section("")]
    table: Table | None = None
    for line in text.splitlines():
        here = sections[-1]
        if heading := re.match(r"#+ (.*)", line):
            sections.append(Section(heading[1]))
            table = None
        elif not line.startswith("|"):
            here.text += line + "\n"
            table = None
        elif table is None:
            table = Table(_cells(line))
            here.tables.append(table)
        elif not re.fullmatch(r"[|\s:-]+", line):
            table.rows.append(_cells(line))
    for section in sections:
        section.text = _unwrapped(section.text)
    return sections


def quoted(text: str) -> list[str]:
    """The parts in backticks."""
    return re.findall(r"`([^`]+)`", text)
