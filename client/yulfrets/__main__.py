"""The command `yulfrets`."""

from __future__ import annotations

import json
import os
import sys
from argparse import Namespace
from collections.abc import Sequence

from .arguments import parser
from .console import Console, plain
from .context import Context
from .errors import ExitStatus, Failure, Refused
from .hints import with_hint
from .settings import settings_of

DEFAULTS = {"json": False, "quiet": False, "wait": 3600.0}


def words_of(words: Sequence[str] | None) -> Namespace:
    """The words, with what wasn't said."""
    read = parser().parse_args(words)
    for name, value in DEFAULTS.items():
        if not hasattr(read, name):
            setattr(read, name, value)
    if not hasattr(read, "instance"):
        read.instance = os.environ.get("YULFRETS_INSTANCE")
    return read


def print_failure(fault: Failure, as_json: bool) -> int:
    """Prints a failure on standard error: one line, and one that says what to do."""
    if isinstance(fault, Refused):
        with_hint(fault)
    if as_json:
        print(json.dumps({"error": fault.as_json()}, ensure_ascii=False), file=sys.stderr)
        return fault.status
    print(plain(f"yulfrets: {fault.message}"), file=sys.stderr)
    if fault.fields.get("text"):
        print(plain(f"  {fault.fields['text']}"), file=sys.stderr)
    if fault.hint:
        print(plain(f"  {fault.hint}"), file=sys.stderr)
    return fault.status


def main(words: Sequence[str] | None = None) -> int:
    """Runs the command and returns its exit status."""
    read = words_of(words)
    console = Console(read.json, read.quiet)
    try:
        context = Context(read, console, settings_of(read))
        try:
            return int(read.run(context))
        finally:
            context.transport.close()
    except Failure as fault:
        return int(print_failure(fault, read.json))
    except KeyboardInterrupt:
        return ExitStatus.INTERRUPTED
    except BrokenPipeError:
        os.dup2(os.open(os.devnull, os.O_WRONLY), sys.stdout.fileno())
        return ExitStatus.FILES


if __name__ == "__main__":
    sys.exit(main())
