"""What lists of topics by a filter, an order and a page take: python3 -m bench.lists PROGRAM
[--topics N] [--runs N]

Each figure is of a processor's time, the least of N (5) runs of `replay`, less that of the same
session without the lists, for one list of N (9,900) topics. The ratio is against the list of all of
them. A session has at most 10,000 requests. The last rows are what takes most: a filter of 4,096
bytes, of which 32 `(` are open within each other; as many searches of the longest member as a
filter has room for, of one byte and of two; and an order by four of the longest texts, of which
only the last byte of the last differs.
"""

import sys
import urllib.parse
from collections.abc import Callable
from typing import NamedTuple

from bench.timing import least_of_processor, replay_words, request
from tests.support.checks import arguments
from tests.support.http import topics_of
from tests.support.programs import built

TOPICS = topics_of()
# How often a session asks for a list, and for the first few of one, which takes much less.
TIMES = 10
TIMES_OF_A_FEW = 90
TITLES = ("Pipe through a beam", "Duct and tray cross", "Door without clearance", "Wall", "Stair")


def joined(first: str, test: str) -> str:
    """Tests joined by `or`, as many as a filter has room for."""
    return first + f"or {test}" * ((4096 - len(first)) // (len(test) + 3))


DEEP = joined("(" * 32 + "title eq ''" + ")" * 32, "contains(title,'overlaps')")
BYTE = joined("contains(stage,'b')", "contains(stage,'b')")
TWO_BYTES = joined("contains(stage,'ab')", "contains(stage,'ab')")
ALL_KEPT = "title ne 'x' and index ge 0"

Texts = Callable[[int], str]


class Row(NamedTuple):
    """A list that is measured: its filter, its order and its page."""

    name: str
    kept: str | None = None
    order: str | None = None
    top: int | None = None
    skip: int | None = None


BY_TITLE = "title,index desc,creation_date"
ROWS = [
    Row("all"),
    Row("all, filtered", ALL_KEPT),
    Row("all, ordered", None, BY_TITLE),
    Row("all, filtered and ordered", ALL_KEPT, BY_TITLE),
    Row("the first 20", top=20),
    Row("the first 20, ordered", None, BY_TITLE, 20),
    Row("the first 20, filtered and ordered", ALL_KEPT, "index desc", 20),
    Row("none, by a filter 32 deep", DEEP),
]
STAGED = [
    Row("none, by searches of 4,096 bytes for one", BYTE),
    Row("none, by searches of 4,096 bytes for two", TWO_BYTES),
]
TEXTS = ("topic_type", "priority", "stage", "description")
# The page is one topic, so that what is measured isn't the printing of long texts.
ALIKE = [
    Row("the first, by four texts of 4,096 bytes", None, ",".join(TEXTS), 1),
    Row("the last, by four texts of 4,096 bytes", None, ",".join(TEXTS), 1, 9899),
]


def no_texts(_: int) -> str:
    return ""


def staged(_: int) -> str:
    """The longest stage."""
    return f',"stage":"{"a" * 4096}"'


def alike(number: int) -> str:
    """The longest texts, which differ in the last byte of the last."""
    given = {name: "a" * 4096 for name in TEXTS}
    given["description"] = "a" * 4095 + chr(ord("A") + number % 26)
    return "".join(f',"{name}":"{text}"' for name, text in given.items())


def topics(count: int, texts: Texts) -> list[bytes]:
    """So many topics, each with these texts beside its title."""
    made = []
    for number in range(count):
        index = number * 7919 % count
        body = f'{{"title":"{TITLES[number % 5]}","index":{index}{texts(number)}}}'
        made.append(request("POST", TOPICS, body))
    return made


def listed(row: Row) -> bytes:
    """A request for a list."""
    parts = {"$filter": row.kept, "$orderby": row.order, "$top": row.top, "$skip": row.skip}
    given = {name: value for name, value in parts.items() if value is not None}
    query = urllib.parse.urlencode(given, safe="$", quote_via=urllib.parse.quote)
    return request("GET", f"{TOPICS}?{query}" if query else TOPICS)


def taken(program: str, runs: int, requests: list[bytes]) -> float:
    """The processor's seconds of a session, each of whose requests is answered without a fault."""

    def check(output: bytes) -> None:
        if output.count(b"X-Book-Turn: ") != len(requests) or b'"code"' in output:
            sys.exit(f"not each request was answered: {output[-200:]!r}")

    return least_of_processor(replay_words(program), b"".join(requests), runs, check)


def main() -> int:
    parser = arguments(__doc__)
    parser.add_argument("--runs", metavar="N", type=int, default=5)
    parser.add_argument("--topics", metavar="N", type=int, default=9900)
    given = parser.parse_args()
    program = built(given.program)
    whole = None
    for texts, rows in ((no_texts, ROWS), (staged, STAGED), (alike, ALIKE)):
        first = topics(given.topics, texts)
        before = taken(program, given.runs, first)
        for row in rows:
            times = TIMES_OF_A_FEW if row.top == 20 else TIMES
            lists = [listed(row)] * times
            each = (taken(program, given.runs, first + lists) - before) / times
            whole = whole or each
            print(f"{row.name}: {1000 * each:.2f} ms, ratio {each / whole:.2f}")
    return 0


if __name__ == "__main__":
    sys.exit(main())
