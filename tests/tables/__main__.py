"""Shows what the built program makes of tables that an independent program worked out: faces with
holes, joined and cut, and pairs of triangles that pierce or don't. Each row of a table is an upload
of its own.

    python3 -m tests.tables PROGRAM [ROW ..]
"""

import sys
from collections.abc import Callable
from functools import partial

from tests.support.checks import arguments, chosen, run_rows
from tests.support.programs import built
from tests.tables.faces import joined_faces
from tests.tables.pairs import pierced_pairs

ALL: list[Callable[[str], str]] = [joined_faces, pierced_pairs]
ROWS = {row.__name__: row for row in ALL}


def main() -> int:
    parser = arguments(__doc__)
    parser.add_argument("rows", metavar="ROW", nargs="*", help=", ".join(ROWS))
    given = parser.parse_args()
    program, asked = built(given.program), chosen(list(ROWS), given.rows)
    return run_rows({name: partial(ROWS[name], program) for name in asked})


if __name__ == "__main__":
    sys.exit(main())
