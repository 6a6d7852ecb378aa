"""Fills the book of the built program's server up to its limits (docs/LIMITS.md), and prints how
long one request takes there, how long another client waited meanwhile, and the most memory that the
server took.

    python3 -m tests.limits PROGRAM [--scale S] [ROW ..]

With a scale below 1 it goes up to that part of each limit, and what would be refused beyond it
isn't asked for. Each row has a server of its own, with one worker.
"""

import sys
from collections.abc import Callable

from tests.limits import rows
from tests.support.checks import CheckFailed, arguments, chosen
from tests.support.programs import built

ALL: list[Callable[[str, float], None]] = [
    rows.elements,
    rows.memberships,
    rows.journal,
    rows.pairs,
    rows.topics,
    rows.components,
    rows.triangles,
    rows.uploads,
    rows.changes,
]
ROWS = {row.__name__: row for row in ALL}


def main() -> int:
    parser = arguments(__doc__)
    parser.add_argument("--scale", type=float, default=1, help="up to which part of each limit")
    parser.add_argument("rows", metavar="ROW", nargs="*", help=", ".join(ROWS))
    given = parser.parse_intermixed_args()
    program, asked, failed = built(given.program), chosen(list(ROWS), given.rows), 0
    for name in asked:
        print(f"{name}: " + " ".join((ROWS[name].__doc__ or "").split()), flush=True)
        try:
            ROWS[name](program, given.scale)
        except (CheckFailed, OSError) as fault:
            failed += 1
            print(f"  FAILS: {type(fault).__name__} {fault}", flush=True)
    print(f"{len(asked) - failed} passed, {failed} failed")
    return 1 if failed else 0


if __name__ == "__main__":
    sys.exit(main())
