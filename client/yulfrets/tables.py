"""Rows for tables, CSV and XLSX."""

from __future__ import annotations

import csv
import re
import sys
from collections import Counter
from collections.abc import Sequence
from pathlib import Path
from typing import Any

from .compare import ElementKey
from .console import Cell
from .errors import FileFault, UsageFault
from .records import Clash, Element, End, Rule, TopicRecord

CLASH_HEAD = [
    "place",
    "rule",
    "distance",
    "a model",
    "a class",
    "a name",
    "a storey",
    "a guid",
    "b model",
    "b class",
    "b name",
    "b storey",
    "b guid",
]
TOPIC_MEMBERS = {
    "number": "server_assigned_id",
    "title": "title",
    "type": "topic_type",
    "status": "topic_status",
    "priority": "priority",
    "assigned to": "assigned_to",
    "due": "due_date",
    "author": "creation_author",
    "created": "creation_date",
    "modified": "modified_date",
}
"""The columns of topics, and the members that they show."""
TOPIC_HEAD = list(TOPIC_MEMBERS)
NARROW = {
    "place",
    "rule",
    "a class",
    "a name",
    "a storey",
    "b class",
    "b name",
    "b storey",
    "number",
    "title",
    "status",
    "assigned to",
}
"""The columns that a terminal shows of rows that are too long for it."""
GROUPS = ("rule", "storey", "class")
NOT_IN_XML = re.compile(r"[\x00-\x08\x0b\x0c\x0e-\x1f\ufffe\uffff\ud800-\udfff]")
Elements = dict[ElementKey, Element]


def end_json(end: End, elements: Elements) -> dict[str, Any]:
    """An end of a clash with its element's class, name and storey."""
    element = elements.get((end["model"], end["guid"]))
    shown: dict[str, Any] = {"model": end["model"], "guid": end["guid"]}
    for member in ("class", "name", "storey"):
        shown[member] = element[member] if element else None  # type: ignore[literal-required]
    return shown


def clash_json(clash: Clash, elements: Elements) -> dict[str, Any]:
    """A clash with what is known of its elements."""
    return {
        "a": end_json(clash["a"], elements),
        "b": end_json(clash["b"], elements),
        "rule": clash["rule"],
        "distance": clash.get("distance"),
    }


def clash_rows(
    clashes: Sequence[Clash], places: Sequence[int], elements: Elements
) -> list[list[Cell]]:
    """A row for each clash, with its place among all of its version."""
    rows: list[list[Cell]] = []
    for clash, place in zip(clashes, places, strict=True):
        row: list[Cell] = [place, clash["rule"], clash.get("distance")]
        for end in (clash["a"], clash["b"]):
            shown = end_json(end, elements)
            row += [shown[member] for member in ("model", "class", "name", "storey", "guid")]
        rows.append(row)
    return rows


def topic_rows(topics: Sequence[TopicRecord]) -> list[list[Cell]]:
    """A row for each topic."""
    members = TOPIC_MEMBERS.values()
    return [[topic.get(member) for member in members] for topic in topics]  # type: ignore[misc]


def rule_words(number: int, rules: Sequence[Rule]) -> str:
    """A rule in words."""
    if number >= len(rules):
        return str(number)
    rule = rules[number]
    words = f"{number}: {rule['a']} and {rule['b']}"
    if "distance" in rule:
        words += f", {rule['distance']} mm"
    if rule["kind"] == "pierce":
        words += ", piercing"
    if rule["storey"] != "any":
        words += f", {rule['storey']} storey"
    if rule["level"] is not None:
        words += f", level {rule['level']}"
    if rule["models"] != "any":
        words += f", {rule['models']} model"
    return words


def group_of(clash: Clash, by: str, elements: Elements, rules: Sequence[Rule]) -> str:
    """What a clash is counted under."""
    if by == "rule":
        return rule_words(clash["rule"], rules)
    shown = [end_json(end, elements)[by] or "(none)" for end in (clash["a"], clash["b"])]
    first, second = sorted(shown)
    return first if first == second and by == "storey" else f"{first} / {second}"


def grouped(
    clashes: Sequence[Clash], by: str, elements: Elements, rules: Sequence[Rule]
) -> list[tuple[str, int]]:
    """How many clashes each group has, the largest first."""
    counts = Counter(group_of(clash, by, elements, rules) for clash in clashes)
    return sorted(counts.items(), key=lambda item: (-item[1], item[0]))


def csv_cell(cell: Cell) -> Cell:
    """A cell that no spreadsheet takes for a formula: such texts get an apostrophe in front."""
    if isinstance(cell, str) and cell[:1] in ("=", "+", "-", "@", "\t", "\r"):
        return "'" + cell
    return cell


def write_csv(
    target: str, head: Sequence[str], rows: Sequence[Sequence[Cell]], separator: str
) -> None:
    """Writes rows as CSV: to standard output, or to a file that Excel sees is UTF-8."""
    if len(separator) != 1:
        raise UsageFault("the separator of CSV is one character", "such as ';'")
    lines: list[list[Cell]] = [list(head), *[[csv_cell(cell) for cell in row] for row in rows]]
    if target == "-":
        csv.writer(sys.stdout, delimiter=separator, lineterminator="\n").writerows(lines)
        return
    try:
        with open(target, "w", newline="", encoding="utf-8-sig") as file:
            csv.writer(file, delimiter=separator).writerows(lines)
    except OSError as fault:
        raise FileFault(f"{target}: {fault.strerror}") from fault


def write_xlsx(
    target: str, head: Sequence[str], rows: Sequence[Sequence[Cell]], title: str
) -> None:
    """Writes rows as a sheet with a filter; a text is never a formula."""
    try:
        import openpyxl
        from openpyxl.cell import WriteOnlyCell
        from openpyxl.utils import get_column_letter
    except ImportError as fault:
        raise UsageFault(
            "XLSX needs the package openpyxl", "apt-get install python3-openpyxl"
        ) from fault
    book = openpyxl.Workbook(write_only=True)
    sheet = book.create_sheet(title[:31])
    sheet.freeze_panes = "A2"
    last = get_column_letter(len(head))
    sheet.auto_filter.ref = f"A1:{last}{len(rows) + 1}"
    for at, name in enumerate(head):
        column = sheet.column_dimensions[get_column_letter(at + 1)]
        column.width = 26 if "guid" in name or "name" in name or name == "title" else 14
    for row in [list(head), *rows]:
        cells = []
        for value in row:
            text = NOT_IN_XML.sub("", value)[:32767] if isinstance(value, str) else value
            cell = WriteOnlyCell(sheet, text)
            if isinstance(text, str):
                cell.data_type = "s"
            cells.append(cell)
        sheet.append(cells)
    try:
        book.save(Path(target))
    except OSError as fault:
        raise FileFault(f"{target}: {fault.strerror}") from fault
