"""Writes a store of changes and stops it in the ways in which a machine does. After each, sqlite3
says that the file is sound, and the file has every change whose turn was printed, at its turn, and
at most the one that was being added.

    python3 -m tests.stores PROGRAM [--seed N] [--rounds N] [ROW ..]

PROGRAM is the built crates/store_writer_tests. The seed, which is printed, draws when it is killed
and where the files are cut.
"""

import sys
import tempfile
from collections.abc import Callable
from functools import partial

from tests.stores.rows import cut, full, killed, locked, refused
from tests.stores.writer import Writer
from tests.support.checks import arguments, chosen, run_rows, with_seed
from tests.support.programs import built, need

ALL: list[Callable[[Writer], str]] = [killed, cut, full, locked, refused]
ROWS = {row.__name__: row for row in ALL}


def main() -> int:
    parser = arguments(__doc__)
    with_seed(parser)
    parser.add_argument("--rounds", type=int, default=20, help="rounds of a row that draws")
    parser.add_argument("rows", metavar="ROW", nargs="*", help=", ".join(ROWS))
    given = parser.parse_intermixed_args()
    program, asked = built(given.program), chosen(list(ROWS), given.rows)
    need("sqlite3")
    print(f"seed {given.seed}", flush=True)
    with tempfile.TemporaryDirectory() as folder:
        writer = Writer(program, folder, given.seed, given.rounds)
        return run_rows({name: partial(ROWS[name], writer) for name in asked})


if __name__ == "__main__":
    sys.exit(main())
