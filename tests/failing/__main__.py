"""Has each read, write and allocation of the built program fail in turn, and each accept, each call
that opens its doors and each thread, by a small library that is loaded before the C library
(failing.c, built here). What must come of it:

- a read that fails ends a session with status 4 once all that came before was answered, a write
  with status 5 and a prefix;
- where memory is refused each reply is as it would be, or 503 `M1`, and then the request changed
  nothing, or the run ends with status 6 between two replies. What a reply would be is worked out by
  tests/oracle, request by request;
- a connection's fault ends that connection alone, and what it had changed stays; a door's fault
  ends the server, status 4.

    python3 -m tests.failing PROGRAM [--seed N] [--some N] [ROW ..]

The seed, which is printed, draws the sizes of pieces, and with --some the calls that fail where
each run begins a server, no more than so many of a kind, and the script ends after two minutes;
without it all fail in turn.
"""

import sys
import tempfile
from collections.abc import Callable
from functools import partial

from tests.failing.commands import (
    broken_uploads,
    commands,
    replay_memory,
    replay_reads,
    replay_writes,
    stored_run,
)
from tests.failing.servers import (
    serve_doors,
    serve_links,
    serve_memory,
    serve_threads,
    serve_undone,
)
from tests.failing.tool import Tool
from tests.support.checks import arguments, chosen, run_rows, with_seed, within
from tests.support.programs import built

GATE = 120  # seconds that it may take where the gate asks for some calls
ALL: list[Callable[[Tool], str]] = [
    stored_run,
    replay_reads,
    replay_writes,
    replay_memory,
    commands,
    broken_uploads,
    serve_links,
    serve_doors,
    serve_threads,
    serve_memory,
    serve_undone,
]
ROWS = {row.__name__: row for row in ALL}


def main() -> int:
    parser = arguments(__doc__)
    with_seed(parser)
    parser.add_argument("--some", type=int, metavar="N", help="no more than N calls of a kind")
    parser.add_argument("rows", metavar="ROW", nargs="*", help=", ".join(ROWS))
    given = parser.parse_intermixed_args()
    program, asked = built(given.program), chosen(list(ROWS), given.rows)
    print(f"seed {given.seed}", flush=True)
    if given.some is not None:
        within(GATE)
    with tempfile.TemporaryDirectory() as folder:
        tool = Tool(program, folder, given.seed, given.some)
        try:
            return run_rows({name: partial(ROWS[name], tool) for name in asked})
        finally:
            tool.workers.shutdown(cancel_futures=True)


if __name__ == "__main__":
    sys.exit(main())
