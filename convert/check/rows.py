"""Runs the rows of a check, one after the other."""

from __future__ import annotations

from typing import Callable, Mapping


def run_rows(subject: str, rows: Mapping[str, Callable[[], None]]) -> int:
    """Calls each row, prints those that fail and how many did, and returns the exit status."""
    failed = 0
    for name, row in rows.items():
        try:
            row()
        except AssertionError as error:
            failed += 1
            print(f"FAILED {subject}, {name}: {error}")
    print(f"{subject}: {len(rows) - failed} passed, {failed} failed")
    return 1 if failed else 0
