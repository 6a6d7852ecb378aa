"""Serves over real sockets on the loopback address, and checks each reply against what one thread
answers to the requests of all connections in the order of their turns
(tests/support/one_thread.py).

    python3 -m tests.serve PROGRAM [ROW ..]

`silent` is a row of 70 seconds that is not among those run by default; `cases=GROUP` sends the
sessions of a group of cases.
"""

import sys
from collections.abc import Callable
from functools import partial

from tests.serve.edges import crowds, dates, idle, pages, sources, turns, umlauts, workers
from tests.serve.ends import end_by_links, end_by_signal, words
from tests.serve.given import given
from tests.serve.many import clashes, curl, interleaved, many_clients, pipelined
from tests.serve.slow import cut, never_reads, refused_at_once, silent, slow
from tests.serve.streams import cases
from tests.support.checks import arguments, chosen, run_rows
from tests.support.programs import built

ALL: list[Callable[[str], str]] = [
    words,
    pipelined,
    many_clients,
    interleaved,
    clashes,
    curl,
    slow,
    never_reads,
    cut,
    refused_at_once,
    end_by_links,
    end_by_signal,
    umlauts,
    dates,
    sources,
    idle,
    turns,
    workers,
    pages,
    crowds,
    given,
    silent,
]
ROWS = {row.__name__: row for row in ALL}


def row_of(name: str, program: str) -> Callable[[], str]:
    """The row of a name, over the program."""
    word, _, group = name.partition("=")
    return partial(cases, program, group) if word == "cases" else partial(ROWS[word], program)


def main() -> int:
    parser = arguments(__doc__)
    parser.add_argument("rows", metavar="ROW", nargs="*", help=", ".join([*ROWS, "cases=GROUP"]))
    given = parser.parse_args()
    program = built(given.program)
    chosen([*ROWS, *(name for name in given.rows if name.startswith("cases="))], given.rows)
    asked = given.rows or [name for name in ROWS if name != "silent"]
    return run_rows({name: row_of(name, program) for name in asked})


if __name__ == "__main__":
    sys.exit(main())
