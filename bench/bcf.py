"""How the time of topics, comments and viewpoints grows with their number: python3 -m bench.bcf
PROGRAM [--runs N]

Each figure is of a processor's time, the least of N (5) runs of `replay`, less that of the same
session without the requests that are measured. A session has at most 10,000 requests, so it holds
up to 9,000 objects. The ratio is against the first figure of the same line.

- make: a POST of a topic, a comment or a viewpoint, where there are 900 or 9,000 already;
- read: a GET of one of them, all over the book;
- replace: a PUT of a topic or a comment;
- list: microseconds for each object that is listed.
"""

import sys
from collections.abc import Callable

from bench.timing import least_of_processor, replay_words, request
from tests.support.checks import arguments
from tests.support.http import topics_of
from tests.support.programs import built

TOPICS = topics_of()
TITLE, WORDS = '{"title":"Pipe"}', '{"comment":"Move it"}'
VIEW = '{"components":{"selection":[{"ifc_guid":"0000000000000000000011"}]}}'
TIMES = 900  # how often a measured request comes
Requests = Callable[[int], list[bytes]]


def guid(serial: int) -> str:
    return f"00000001-0000-8000-8000-{serial:012x}"


COMMENTS, VIEWS = f"{TOPICS}/{guid(1)}/comments", f"{TOPICS}/{guid(1)}/viewpoints"


def topics(count: int) -> list[bytes]:
    return [request("POST", TOPICS, TITLE)] * count


def comments(count: int) -> list[bytes]:
    """A topic and its comments."""
    return topics(1) + [request("POST", COMMENTS, WORDS)] * (count - 1)


def views(count: int) -> list[bytes]:
    """A topic and its viewpoints."""
    return topics(1) + [request("POST", VIEWS, VIEW)] * (count - 1)


def always(method: str, target: str, body: str = "", times: int = TIMES) -> Requests:
    """One request so often."""
    return lambda count: [request(method, target, body)] * times


def all_over(method: str, target: str, first: int, body: str = "") -> Requests:
    """Requests for TIMES objects, which are spread over those from the first serial number on."""

    def make(count: int) -> list[bytes]:
        step = max(1, (count - first) // TIMES)
        serials = (first + (place * step) % (count - first) for place in range(TIMES))
        return [request(method, f"{target}/{guid(serial)}", body) for serial in serials]

    return make


# What is measured: its name, the requests before, those that are measured, and how many objects
# each of these lists.
ROWS: list[tuple[str, Requests, Requests, bool]] = [
    ("make a topic", topics, always("POST", TOPICS, TITLE), False),
    ("make a comment", comments, always("POST", COMMENTS, WORDS), False),
    ("make a viewpoint", views, always("POST", VIEWS, VIEW), False),
    ("read a topic", topics, all_over("GET", TOPICS, 1), False),
    ("read a comment", comments, all_over("GET", COMMENTS, 2), False),
    ("read a viewpoint", views, all_over("GET", VIEWS, 2), False),
    ("replace a topic", topics, all_over("PUT", TOPICS, 1, TITLE), False),
    ("replace a comment", comments, all_over("PUT", COMMENTS, 2, WORDS), False),
    ("list topics", topics, always("GET", TOPICS, times=10), True),
    ("list comments", comments, always("GET", COMMENTS, times=10), True),
    ("list viewpoints", views, always("GET", VIEWS, times=10), True),
]


def taken(program: str, runs: int, requests: list[bytes]) -> float:
    """The processor's seconds of a session, each of whose requests is answered without a fault."""

    def check(output: bytes) -> None:
        if output.count(b"X-Book-Turn: ") != len(requests) or b'"code"' in output:
            sys.exit(f"not each request was answered: {output[-200:]!r}")

    return least_of_processor(replay_words(program), b"".join(requests), runs, check)


def main() -> int:
    parser = arguments(__doc__)
    parser.add_argument("--runs", metavar="N", type=int, default=5)
    given = parser.parse_args()
    program = built(given.program)
    for name, before, measured, lists in ROWS:
        base = None
        for count in (900, 3000, 9000):
            first, then = before(count), measured(count)
            spent = taken(program, given.runs, first + then) - taken(program, given.runs, first)
            each = 1e6 * spent / (len(then) * count if lists else len(then))
            base = base or each
            print(f"{name}: {count} there, {each:.2f} us, ratio {each / base:.2f}")
    return 0


if __name__ == "__main__":
    sys.exit(main())
