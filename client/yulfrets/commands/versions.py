"""`versions` and `projects`: what the server has."""

from __future__ import annotations

from typing import Any

from ..api import projects
from ..compare import Step, step
from ..console import Cell, counted
from ..context import Context
from ..errors import ExitStatus
from ..records import Version

HEAD = ["version", "models", "elements", "rules", "clashes", "what changed"]


def words_of(change: Step | None) -> str:
    """What a version changed, in words."""
    if change is None:
        return "(the version before isn't kept)"
    parts = [f"put {name}" for name in change.put]
    parts += [f"removed {name}" for name in change.removed]
    parts += ["rules set"] if change.rules else []
    return ", ".join(parts) or "nothing (the same again)"


def version_json(context: Context, one: Version, change: Step | None) -> dict[str, Any]:
    """A version as JSON, without its elements."""
    return {
        "version": one["version"],
        "models": {model["name"]: len(model["elements"]) for model in one["models"]},
        "elements": sum(len(model["elements"]) for model in one["models"]),
        "rules": len(one["rules"]),
        "clashes": context.project.clash_count(one["version"]),
        "changed": None
        if change is None
        else {"put": change.put, "removed": change.removed, "rules": change.rules},
    }


def run(context: Context) -> int:
    """Lists the versions that are kept, from the newest down."""
    most = context.words.most
    # one more, to see what the last one changed
    found = list(context.project.versions(most + 1))
    records: list[dict[str, Any]] = []
    rows: list[list[Cell]] = []
    for place, one in enumerate(found[:most]):
        before = found[place + 1] if place + 1 < len(found) else None
        change = step(before, one) if before else None
        records.append(version_json(context, one, change))
        last = records[-1]
        clashes = "looking .." if last["clashes"] is None else last["clashes"]
        models = ", ".join(f"{name} ({count})" for name, count in last["models"].items())
        what = "the beginning" if one["version"] == 0 else words_of(change)
        rows.append([one["version"], models, last["elements"], last["rules"], clashes, what])
    context.console.table(HEAD, rows)
    context.console.give({"project": context.project.identifier, "versions": records})
    return ExitStatus.DONE


def run_projects(context: Context) -> int:
    """Lists the projects by number."""
    known = projects(context.transport)
    rows: list[list[Cell]] = [
        [place + 1, one["name"], one["project_id"]] for place, one in enumerate(known)
    ]
    context.console.table(["number", "name", "identifier"], rows)
    context.console.give(known)
    return ExitStatus.DONE


def run_remove(context: Context) -> int:
    """Takes a model out of the project."""
    changed = context.project.delete_model(context.words.model)
    number, name = changed["version"], context.words.model
    context.console.say(
        f"version {number}: without {name}, {counted(changed['elements'], 'element')}"
    )
    context.console.give(changed)
    return ExitStatus.DONE
