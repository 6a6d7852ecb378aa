"""Notes what the built program asks of the system, by a small library that is loaded before the C
library (watching.c, built here): which address it listens at, how long it waits for a silent
client, in which pieces it reads and writes, and how much memory it asks for by the shape of its
input. What is counted doesn't depend on the machine's speed.

    python3 -m tests.system PROGRAM [ROW ..]

The rows of memory need the C library's own allocator: a program with one of its own (that of make
try) fails them.
"""

import sys
import tempfile
from collections.abc import Callable
from functools import partial

from tests.support.checks import arguments, chosen, run_rows
from tests.support.programs import built
from tests.system.commands import blocks, first_refusal, many_files, words
from tests.system.memory import MEMORY
from tests.system.sockets import address, options, parted, pieces, silence
from tests.system.watch import Watch

ALL: list[Callable[[Watch], str]] = [
    address,
    options,
    silence,
    parted,
    pieces,
    blocks,
    many_files,
    first_refusal,
    words,
    *MEMORY,
]
ROWS = {row.__name__: row for row in ALL}


def main() -> int:
    parser = arguments(__doc__)
    parser.add_argument("rows", metavar="ROW", nargs="*", help=", ".join(ROWS))
    given = parser.parse_args()
    program, asked = built(given.program), chosen(list(ROWS), given.rows)
    with tempfile.TemporaryDirectory() as folder:
        watch = Watch(program, folder)
        return run_rows({name: partial(ROWS[name], watch) for name in asked})


if __name__ == "__main__":
    sys.exit(main())
