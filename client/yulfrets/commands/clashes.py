"""`clashes`: the clashes of a version, all or the new ones, as a table, CSV, XLSX or JSON."""

from __future__ import annotations

from dataclasses import dataclass

from ..compare import Difference, difference, elements_of, pair_key
from ..console import Cell, counted
from ..context import Context
from ..errors import ExitStatus
from ..records import Clash
from ..tables import (
    CLASH_HEAD,
    NARROW,
    Elements,
    clash_json,
    clash_rows,
    grouped,
    write_csv,
    write_xlsx,
)


@dataclass
class Found:
    """The clashes that are asked for, with their places among all of the version."""

    version: int
    total: int
    clashes: list[Clash]
    places: list[int]
    base: int | None
    changes: Difference | None


def find(context: Context) -> Found:
    """The clashes that the words ask for."""
    words = context.words
    number = context.project.newest() if words.version is None else words.version
    clashes = context.clashes(number)
    if not words.new and words.since is None:
        return Found(number, len(clashes), clashes, list(range(len(clashes))), None, None)
    base = max(0, number - 1) if words.since is None else words.since
    changes = context.compared(base, clashes) if base != number else difference(clashes, clashes)
    place = {pair_key(one): at for at, one in enumerate(clashes)}
    places = [place[pair_key(one)] for one in changes.new]
    return Found(number, len(clashes), changes.new, places, base, changes)


def print_groups(context: Context, found: Found, by: str) -> None:
    """How many clashes each rule, storey or class has."""
    version = context.project.version(found.version)
    counts = grouped(found.clashes, by, elements_of(version), version["rules"])
    rows: list[list[Cell]] = [[name, count] for name, count in counts]
    write_files(context, [by, "clashes"], rows, f"clashes by {by}")
    groups = [{by: name, "count": count} for name, count in counts]
    context.console.give({"version": found.version, "total": found.total, "groups": groups})


def write_files(context: Context, head: list[str], rows: list[list[Cell]], title: str) -> None:
    """The rows as files, where files are asked for, else as a table."""
    words = context.words
    if words.csv:
        write_csv(words.csv, head, rows, words.separator)
    if words.xlsx:
        write_xlsx(words.xlsx, head, rows, title)
    if not words.csv and not words.xlsx:
        context.console.table(head, rows, whole=words.all, narrow=NARROW)
    for path in (words.csv, words.xlsx):
        if path and path != "-":
            context.console.say(f"{path}: {counted(len(rows), 'row')}")


def with_base(context: Context, found: Found, elements: Elements) -> Elements:
    """The elements of a version and those of the one that it is compared with."""
    if found.base is None or not found.changes or not found.changes.gone:
        return elements
    return elements_of(context.project.version(found.base)) | elements


def print_clashes(context: Context, found: Found, elements: Elements) -> None:
    """A row for each clash, and the same as JSON."""
    rows = clash_rows(found.clashes, found.places, elements)
    write_files(context, CLASH_HEAD, rows, f"clashes of version {found.version}")
    record = {
        "version": found.version,
        "total": found.total,
        "clashes": [clash_json(one, elements) for one in found.clashes],
    }
    if found.changes is not None:
        record["base"] = found.base
        before = with_base(context, found, elements)
        record["gone"] = [clash_json(one, before) for one in found.changes.gone]
    context.console.give(record)


def run(context: Context) -> int:
    """Prints or writes clashes."""
    found = find(context)
    if context.words.by:
        print_groups(context, found, context.words.by)
    else:
        print_clashes(context, found, elements_of(context.project.version(found.version)))
    if context.words.csv != "-":
        line = f"version {found.version}: {counted(found.total, 'clash')}"
        if found.changes:
            line += f", {len(found.changes.new)} new and {len(found.changes.gone)} gone"
            line += f" since version {found.base}"
        context.console.say(line)
    failing = context.words.fail_if_new and found.changes and found.changes.new
    return ExitStatus.NEW_CLASHES if failing else ExitStatus.DONE
