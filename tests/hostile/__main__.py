"""Floods the built program's server over real sockets on the loopback address, by a seed that is
printed. In each row other clients are answered meanwhile, what the hostile ones get is what the
rules say, the server's memory stays below a bound that is stated here, and it ends as it must.

    python3 -m tests.hostile PROGRAM [--seed N] [--full] [ROW ..]

With --full as many and as long as a real flood, some minutes; else a part of it, in seconds, and
the script ends after two minutes. What each flood costs is in docs/SECURITY.md.
"""

import resource
import sys
from collections.abc import Callable
from functools import partial

from tests.hostile.bodies import at_limits, bodies, listed, spread, wanting
from tests.hostile.connections import cuts, never_read, resets
from tests.hostile.flood import Flood
from tests.hostile.heads import drip, heads, lengths, odd, pipelined
from tests.support.checks import arguments, chosen, run_rows, with_seed, within
from tests.support.programs import built

GATE = 120  # seconds that a part of the flood may take
FILES = 4096  # how many the process may have open
ALL: list[Callable[[Flood], str]] = [
    drip,
    heads,
    lengths,
    odd,
    cuts,
    resets,
    pipelined,
    never_read,
    bodies,
    at_limits,
    listed,
    spread,
    wanting,
]
ROWS = {row.__name__: row for row in ALL}


def open_many() -> None:
    """Lets the process have as many connections open as a flood needs."""
    most = resource.getrlimit(resource.RLIMIT_NOFILE)[1]
    wanted = FILES if most == resource.RLIM_INFINITY else min(most, FILES)
    resource.setrlimit(resource.RLIMIT_NOFILE, (wanted, most))


def main() -> int:
    parser = arguments(__doc__)
    with_seed(parser)
    parser.add_argument("--full", action="store_true", help="as many and as long as a real flood")
    parser.add_argument("rows", metavar="ROW", nargs="*", help=", ".join(ROWS))
    given = parser.parse_intermixed_args()
    program, asked = built(given.program), chosen(list(ROWS), given.rows)
    open_many()
    print(f"seed {given.seed}", flush=True)
    if not given.full:
        within(GATE)
    floods = {name: Flood(program, f"{given.seed} {name}", given.full) for name in asked}
    return run_rows({name: partial(ROWS[name], floods[name]) for name in asked})


if __name__ == "__main__":
    sys.exit(main())
