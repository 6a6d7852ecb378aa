"""`rules get`, `rules put` and `rules check`."""

from __future__ import annotations

import json
from pathlib import Path

from ..console import counted
from ..context import Context
from ..errors import ExitStatus, FileFault
from ..rules_file import read_rules, remarks, written


def run_get(context: Context) -> int:
    """Prints the rules of the newest version, or writes them into a file."""
    record = written(context.project.version(context.words.version)["rules"])
    text = json.dumps(record, ensure_ascii=False, indent=2)
    target = context.words.file
    if target is None or target == "-":
        print(text)
        return ExitStatus.DONE
    try:
        Path(target).write_text(text + "\n", "utf-8")
    except OSError as fault:
        raise FileFault(f"{target}: {fault.strerror}") from fault
    context.console.say(f"{target}: {len(record['rules'])} rules")
    context.console.give({"file": target, "rules": len(record["rules"])})
    return ExitStatus.DONE


def run_put(context: Context) -> int:
    """Sets the rules that a file has, once they are checked."""
    rules = read_rules(Path(context.words.file))
    changed = context.project.put_rules(rules)
    context.console.say(f"version {changed['version']}: {counted(len(rules), 'rule')} set")
    context.console.give({"rules": len(rules), **changed})
    return ExitStatus.DONE


def run_check(context: Context) -> int:
    """Says whether a file's rules are right, and what of them no element can meet."""
    rules = read_rules(Path(context.words.file))
    found = [] if context.words.offline else remarks(rules, context.project.version())
    for line in found:
        context.console.say(line)
    context.console.say(
        f"{context.words.file}: {counted(len(rules), 'rule')}, {counted(len(found), 'remark')}"
    )
    context.console.give({"rules": len(rules), "remarks": found})
    return ExitStatus.DONE
