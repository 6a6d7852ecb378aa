"""`push`: uploads files, and prints which clashes are new and which are gone."""

from __future__ import annotations

import re
import sys
import tempfile
from dataclasses import dataclass
from pathlib import Path
from typing import Any

from ..compare import Difference, difference, elements_of
from ..console import counted
from ..context import Context
from ..convert import MENDED, Converted, convert, converter, is_needless, left_out
from ..errors import ExitStatus, Failure, FileFault, Refused
from ..hints import with_hint
from ..names import MOST_NAME, Source, sources_of
from ..part21 import place_of
from ..records import Changed, Clash, Version
from ..tables import Elements, clash_json

SHOWN = 20


@dataclass
class Pushed:
    """A file that was uploaded."""

    source: Source
    changed: Changed
    converted: Converted | None

    def as_json(self) -> dict[str, Any]:
        """The same for --json."""
        record: dict[str, Any] = {
            "file": str(self.source.path),
            "model": self.source.name,
            "converted": self.converted is not None,
            **self.changed,
        }
        if self.converted:
            record["whole"] = self.converted.whole
            record["left_out"] = left_out(self.converted.report)
        return record


def explained(fault: Refused, source: Source, path: Path) -> Refused:
    """The refusal of a file, with the line and the element that it is about."""
    with_hint(fault)
    at, number = fault.fields.get("at"), fault.fields.get("id")
    fault.message = f"{source.path}: {fault.message}"
    try:
        place = place_of(path.read_bytes(), at, number)
    except OSError:
        place = None
    if place:
        within = "" if path == source.path else " of the converted file"
        fault.fields["line"], fault.fields["text"] = place.line, place.text
        fault.message += f", line {place.line}{within}"
        if place.element:
            fault.fields["element"] = place.element
            fault.message += f", of {place.element}"
    return fault


def upload(context: Context, source: Source, path: Path) -> Changed:
    """Sends one file, with a bar."""
    label = f"{source.path.name} to {context.project.name}"
    with context.console.progress(label) as progress:
        return context.project.put_model(source.name, path, context.words.grid, progress)


def add(context: Context, pushed: list[Pushed], one: Pushed) -> None:
    """Takes up a model that was uploaded, and says so."""
    pushed.append(one)
    context.console.say(said_of(one))


def convert_and_upload(
    context: Context, source: Source, program: str, pushed: list[Pushed]
) -> None:
    """Converts a file and sends what comes of it, which may be several models."""
    console = context.console
    with tempfile.TemporaryDirectory(prefix="yulfrets.") as folder:
        console.note(f"{source.path}: converted by {Path(program).name} ..")
        # the connection is given back: it would hold one of the server's lanes meanwhile
        context.transport.close()
        shows = sys.stderr.isatty() and not console.quiet
        made = convert(program, source.path, Path(folder), context.words.origin_file, shows)
        for suffix, path in made.parts.items():
            part = Source(source.name[: MOST_NAME - len(suffix)] + suffix, source.path)
            try:
                add(context, pushed, Pushed(part, upload(context, part, path), made))
            except Refused as fault:
                raise explained(fault, part, path) from fault
    notes = left_out(made.report)
    for line in notes[:SHOWN]:
        console.note(f"  {line}")
    if len(notes) > SHOWN:
        console.note(f"  and {len(notes) - SHOWN} more: --json lists them")


def push_one(context: Context, source: Source, pushed: list[Pushed]) -> None:
    """Sends a file as it is, and converts it where the server refuses it and that may help."""
    mode = context.words.convert
    program = converter(context.words.converter) if mode != "never" else None
    if mode == "always" and program is None:
        raise FileFault("the converter ifc2grid isn't there", "install it, or see --converter")
    if mode == "always" and program:
        convert_and_upload(context, source, program, pushed)
        made = pushed[-1].converted
        if made and is_needless(made.report):
            context.console.note(
                f"{source.path}: the server may take it as it is: leave --convert always out"
            )
        return
    try:
        add(context, pushed, Pushed(source, upload(context, source, source.path), None))
    except Refused as fault:
        if not program or fault.code not in MENDED:
            raise explained(fault, source, source.path) from fault
        convert_and_upload(context, source, program, pushed)


def note_older_parts(context: Context, version: Version, pushed: list[Pushed]) -> None:
    """Names the models that an earlier conversion of the same files left under other names."""
    now = {one.source.name for one in pushed}
    converted = {one.source.name for one in pushed if one.converted}
    bases = {re.sub(r"\.\d+$", "", name) for name in converted}
    for name in sorted(one["name"] for one in version["models"]):
        if name not in now and re.sub(r"\.\d+$", "", name) in bases:
            context.console.note(f"the project still has {name}: yulfrets remove {name}")


def said_of(pushed: Pushed) -> str:
    """A line about a file that was uploaded."""
    changed = pushed.changed
    line = f"version {changed['version']}: {pushed.source.name}, "
    line += counted(changed["elements"], "element")
    line += ", " + counted(changed["triangles"], "triangle")
    if pushed.converted:
        line += ", converted" + (
            "" if pushed.converted.whole else " (some is left out or in doubt)"
        )
    return line


def end_words(clash: Clash, end: str, elements: Elements) -> str:
    """An element of a clash in words."""
    record = clash_json(clash, elements)[end]
    kind, name = (record["class"] or "").removeprefix("IFC"), record["name"] or ""
    storey = f" ({record['storey']})" if record["storey"] else ""
    return f"{record['model']} {kind} {name}{storey} {record['guid']}"


def print_list(
    context: Context, title: str, clashes: list[Clash], elements: Elements, rest: str
) -> None:
    """Some clashes, a line each, and where the rest is to be had."""
    context.console.say(f"{title}: {len(clashes)}")
    for clash in clashes[:SHOWN]:
        first, second = (end_words(clash, end, elements) for end in ("a", "b"))
        context.console.say(f"  {first} - {second}")
    if len(clashes) > SHOWN:
        context.console.say(f"  and {len(clashes) - SHOWN} more: {rest}")


def report_difference(
    context: Context, pushed: list[Pushed], before: Version, found: tuple[list[Clash], Difference]
) -> None:
    """What is new and gone, for people and as JSON."""
    clashes, changes = found
    number = pushed[-1].changed["version"]
    version = context.project.version(number)
    note_older_parts(context, version, pushed)
    elements, old = elements_of(version), elements_of(before)
    base = before["version"]
    context.console.say(
        f"clashes of version {number}: {len(clashes)}, compared with version {base}:"
    )
    rest = f"yulfrets clashes --version {number} --since {base} --all"
    print_list(context, "new", changes.new, elements, rest)
    print_list(context, "gone", changes.gone, {**elements, **old}, f"{rest} --json")
    context.console.give(
        {
            "base": base,
            "version": number,
            "pushed": [one.as_json() for one in pushed],
            "total": len(clashes),
            "new": [clash_json(one, elements) for one in changes.new],
            "gone": [clash_json(one, {**elements, **old}) for one in changes.gone],
        }
    )


def run(context: Context) -> int:
    """Uploads the files one after the other, then compares the clashes with those before."""
    sources = sources_of(context.words.files, context.words.name)
    waits = not context.words.no_wait
    before = context.project.version() if waits else None
    earlier = context.clashes(before["version"]) if before else []
    pushed: list[Pushed] = []
    for source in sources:
        try:
            push_one(context, source, pushed)
        except Failure as fault:
            fault.fields["pushed"] = [one.as_json() for one in pushed]
            raise
    lost = any(one.converted and not one.converted.whole for one in pushed)
    if before is None:
        context.console.give({"pushed": [one.as_json() for one in pushed]})
        return ExitStatus.LEFT_OUT if lost else ExitStatus.DONE
    clashes = context.clashes(pushed[-1].changed["version"])
    changes = difference(earlier, clashes)
    report_difference(context, pushed, before, (clashes, changes))
    if context.words.fail_if_new and changes.new:
        return ExitStatus.NEW_CLASHES
    return ExitStatus.LEFT_OUT if lost else ExitStatus.DONE
