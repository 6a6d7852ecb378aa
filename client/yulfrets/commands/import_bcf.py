"""`import bcf`: the topics of a BCF file into the project."""

from __future__ import annotations

from collections import Counter
from pathlib import Path

from ..bcf_import import Importer
from ..bcf_read import BcfFile, read_bcf
from ..console import counted
from ..context import Context
from ..errors import ExitStatus


def note_not_kept(context: Context, not_kept: Counter[str]) -> None:
    """A line about what the server has no place for."""
    parts = [f"{kind}: {count}" for kind, count in sorted(not_kept.items()) if count]
    if parts:
        context.console.note("not kept: " + ", ".join(parts))


def dry_run(context: Context, file: BcfFile) -> int:
    """Says what a file has, and changes nothing."""
    comments = sum(len(one.comments) for one in file.topics)
    views = sum(len(one.viewpoints) for one in file.topics)
    context.console.say(
        f"{context.words.file}: BCF {file.version}, {counted(len(file.topics), 'topic')},"
        f" {counted(comments, 'comment')}, {counted(views, 'viewpoint')}; nothing was sent"
    )
    record = {"bcf_version": file.version, "topics": len(file.topics), "comments": comments}
    not_kept = {kind: count for kind, count in sorted(file.not_kept.items()) if count}
    context.console.give(record | {"viewpoints": views, "not_kept": not_kept})
    return ExitStatus.DONE


def run(context: Context) -> int:
    """Reads the file whole, and then makes its topics."""
    words = context.words
    file = read_bcf(Path(words.file))
    if words.dry_run:
        return dry_run(context, file)
    importer = Importer(
        context.project, context.instance, update=words.update, own_name=words.own_name
    )
    importer.done.not_kept.update(file.not_kept)
    with context.console.progress(Path(words.file).name) as progress:
        done = importer.all(file.topics, progress)
    context.console.say(
        f"{words.file}: {counted(done.made, 'topic')} made, {done.updated} updated,"
        f" {done.there} there before; {counted(done.comments, 'comment')} and"
        f" {counted(done.viewpoints, 'viewpoint')} added"
    )
    if done.there and not words.update:
        context.console.note("add --update to bring topics that were there up to date")
    note_not_kept(context, +done.not_kept)
    done.not_kept = +done.not_kept
    context.console.give({"file": words.file, "bcf_version": file.version, **done.as_json()})
    return ExitStatus.DONE
