"""Shows that what is within the limits (docs/LIMITS.md) is taken, if there is memory: since no
clause says when memory runs out, a body that gave up at half of a limit would keep all of them.
Each row has a server of its own.

    python3 -m tests.within PROGRAM [ROW ..]
"""

import sys
from collections.abc import Callable
from functools import partial

from tests.support.checks import arguments, chosen, run_rows
from tests.support.programs import built
from tests.within.bodies import BODIES
from tests.within.clashes import CLASHES
from tests.within.files import FILES
from tests.within.lists import LISTS

ALL: list[Callable[[str], str]] = [*FILES, *CLASHES, *BODIES, *LISTS]
ROWS = {row.__name__: row for row in ALL}


def main() -> int:
    parser = arguments(__doc__)
    parser.add_argument("rows", metavar="ROW", nargs="*", help=", ".join(ROWS))
    given = parser.parse_args()
    program, asked = built(given.program), chosen(list(ROWS), given.rows)
    return run_rows({name: partial(ROWS[name], program) for name in asked})


if __name__ == "__main__":
    sys.exit(main())
