"""Runs the rows over fronts of their own: check_front.py PROGRAM [--only TEXT] [--table]."""

from __future__ import annotations

import argparse
import sys
import tempfile
import time
import traceback
from pathlib import Path

import walk
from front import Front, StartFault
from rows import GROUPS, Edits, Group, Row


def merged(first: Edits, second: Edits) -> Edits:
    """Edits of a group and those that plant a fault; the planted ones come first."""
    names = {*first, *second}
    return {name: [*second.get(name, []), *first.get(name, [])] for name in names}


def started(program: str, folder: Path, group: Group, edits: Edits) -> Front:
    """A front that runs; on other ports where a port was taken meanwhile, three times."""
    for attempt in range(3):
        front = Front(program, folder, mode=group.mode, edits=edits)
        try:
            front.start(server=group.server)
            return front
        except StartFault:
            front.stop()
            if attempt == 2:
                raise
    raise AssertionError("not reached")


def run_group(program: str, group: Group, planted: Edits, only: str = "") -> dict[str, str]:
    """Each row's fault, empty where it passed."""
    wanted = {name: row for name, row in group.rows.items() if only in name}
    found: dict[str, str] = {}
    if not wanted:
        return found
    # /tmp: nginx's workers, which run as www-data, have to reach it
    with tempfile.TemporaryDirectory(prefix="yulfrets-front-", dir="/tmp") as name:
        folder = Path(name)
        folder.chmod(0o755)
        try:
            front = started(program, folder, group, merged(group.edits, planted))
        except StartFault as fault:
            return {name: f"not started: {fault}" for name in wanted}
        try:
            for name, row in wanted.items():
                found[name] = fault_of(row, front)
        finally:
            front.stop()
        if any(found.values()):
            print((folder / "error.log").read_text()[-3000:], file=sys.stderr)
    return found


def fault_of(row: Row, front: Front) -> str:
    """What a row found wrong, in one line; empty where it passed."""
    try:
        row(front)
    except AssertionError as fault:
        return str(fault) or "an expectation failed"
    except Exception as fault:  # pylint: disable=broad-exception-caught
        last = traceback.extract_tb(fault.__traceback__)[-1]
        return f"{type(fault).__name__}: {fault} ({Path(last.filename).name}:{last.lineno})"
    return ""


def main() -> int:
    """Prints a line a row; the status is 1 where one failed."""
    words = argparse.ArgumentParser(description=__doc__)
    words.add_argument("program")
    words.add_argument("--only", default="", help="rows whose name has this text")
    words.add_argument("--table", action="store_true", help="print the walk instead")
    given = words.parse_args()
    if given.table:
        with tempfile.TemporaryDirectory(prefix="yulfrets-front-", dir="/tmp") as folder:
            Path(folder).chmod(0o755)
            with Front(given.program, Path(folder)) as front:
                print(walk.table(front))
        return 0
    failed = 0
    for group in GROUPS.values():
        start = time.monotonic()
        for name, fault in run_group(given.program, group, {}, given.only).items():
            failed += bool(fault)
            print(f"FAILED {name}: {fault}" if fault else f"ok {name}", flush=True)
        print(f"  ({time.monotonic() - start:.1f} s)", file=sys.stderr)
    return int(failed > 0)


if __name__ == "__main__":
    sys.exit(main())
