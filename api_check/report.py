"""What passed and what failed, and the last line that says how many."""

import sys
from collections.abc import Sequence

SHOWN = 12


class Report:
    """Counts checks, and prints each with the faults that it found."""

    def __init__(self) -> None:
        self.passed = 0
        self.failed = 0

    def doing(self, what: str) -> None:
        """Says on a terminal what goes on, until the next line is printed."""
        if sys.stderr.isatty():
            print(f"{what} ..{' ' * 60}", end="\r", file=sys.stderr, flush=True)

    def add(self, name: str, faults: Sequence[str], note: str = "") -> None:
        """Prints one check. It passes where there are no faults."""
        if faults:
            self.failed += 1
        else:
            self.passed += 1
        print(
            f"{'FAILED' if faults else 'passed'}  {name}{': ' + note if note else ''}", flush=True
        )
        for fault in faults[:SHOWN]:
            print(f"        {fault}", flush=True)
        if len(faults) > SHOWN:
            print(f"        .. and {len(faults) - SHOWN} more", flush=True)

    def end(self) -> int:
        """Prints the last line, and returns the exit status."""
        print(f"api: {self.passed} passed, {self.failed} failed")
        return 1 if self.failed else 0
