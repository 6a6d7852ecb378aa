"""The session whose calls fail, and what must be answered where memory is refused."""

import re

from tests import oracle
from tests.support.checks import CheckFailed, expect
from tests.support.http import (
    MOMENT,
    NO_MEMORY,
    RULES,
    coord_of,
    replies_in,
    request,
    topics_of,
    without_dates,
    without_left,
    without_turn,
)

PROJECT, TOPICS = coord_of(), topics_of()
PIPES, MOVED = oracle.FILES[1:3]

# two pairs of pipes of which one moves, read as its buckets are checked; a topic; the model goes,
# and the newest version
SESSION = [
    request("PUT", f"{PROJECT}/rules", RULES[1]),
    request("PUT", f"{PROJECT}/models/m", PIPES),
    request("GET", f"{PROJECT}/versions/2/clashes"),
    request("GET", f"{PROJECT}/versions/2/clashes"),
    request("PUT", f"{PROJECT}/models/m", MOVED),
    request("GET", f"{PROJECT}/versions/3/clashes"),
    request("GET", f"{PROJECT}/versions/2/clashes"),
    request("POST", TOPICS, b'{"title":"Pipe"}'),
    request("GET", TOPICS),
    request("DELETE", f"{PROJECT}/models/m"),
    request("GET", f"{PROJECT}/versions/newest"),
]
BUCKETS = 1
REPLAY = ["replay", "--at", str(MOMENT), "--buckets", str(BUCKETS)]


class Judge:
    """Says of each reply of a session whether it may come: it is the reference's, at the state that
    the requests before it made, or 503, and then the request changed nothing. A 503 may have taken
    a turn or not."""

    def __init__(self, buckets: int = BUCKETS) -> None:
        self.book = oracle.Book(1, MOMENT)
        self.buckets, self.refused = buckets, 0

    def take(self, asked: bytes, reply: bytes) -> None:
        if reply == NO_MEMORY:
            self.refused += 1
        else:
            self.take_answer(asked, reply)
        self.book.work(self.buckets)

    def take_answer(self, asked: bytes, reply: bytes) -> None:
        """Compares a reply, at the turn that it prints where that may be."""
        turn = re.search(rb"X-Book-Turn: (\d+)\r\n", reply)
        before = self.book.turn
        if turn is not None and 0 <= int(turn[1]) - before - 1 <= self.refused:
            self.book.turn = int(turn[1]) - 1
        if self.book.turn > before:
            self.refused = 0
        wanted = wanted_of(self.book, asked)[1]
        expect(reply == wanted, f"{asked[:60]!r} is answered {reply!r}, wanted {wanted!r}")


def wanted_of(book: oracle.Book, asked: bytes) -> tuple[oracle.Answer, bytes]:
    """What the reference answers to a request at the book's state, and the bytes of it."""
    read = oracle.read_request(asked, 0)
    oracle.read_body(asked, read)
    found = oracle.answer(book, read)
    status, tree, number, methods = found
    return found, oracle.response(status, tree, number, False, False, methods)


def healthy() -> list[bytes]:
    """The replies to the session where nothing fails."""
    data, status = oracle.replay(b"".join(SESSION), 1, MOMENT, BUCKETS)
    expect(status == 0, "the reference does not end with 0")
    return replies_in(data)[0]


def judge_session(number: int, status: int, output: bytes) -> str:
    """Whether a session in which memory was refused is as it must be. How it ended."""
    replies, rest = replies_in(output)
    name = f"allocation {number}"
    expect(rest == b"", f"{name}: the output ends within a reply: {rest[:100]!r}")
    expect(status in (0, 6), f"{name}: status {status}")
    whole = len(replies) == len(SESSION)
    expect(
        whole or status == 6 and len(replies) < len(SESSION),
        f"{name}: {len(replies)} replies, status {status}",
    )
    judge = Judge()
    for asked, reply in zip(SESSION, replies):
        try:
            judge.take(asked, reply)
        except CheckFailed as fault:
            raise CheckFailed(f"{name}, status {status}: {fault}") from None
    count = replies.count(NO_MEMORY)
    return f"status {status} after {count} of 503" if count else f"status {status}"


def like(reply: bytes) -> bytes:
    """A reply without its turn and dates, which a server takes from the system's clock."""
    return without_dates(without_turn(reply))


def judge_loosely(judge: Judge, asked: bytes, reply: bytes, name: str) -> None:
    """Takes a reply of a server whose worker works beside its lane: what is left to be checked is
    not known."""
    if reply == NO_MEMORY:
        return
    pending = re.search(rb'\r\n\r\n\{"left":([1-9]\d*),"version":(\d+)\}$', reply)
    (status, tree, _, _), wanted = wanted_of(judge.book, asked)
    if pending and status in (200, 202) and isinstance(tree, dict) and "total" in tree:
        holds = (
            reply.startswith(b"HTTP/1.1 202 ")
            and int(pending[1]) <= 2
            and int(pending[2]) == tree["version"]
        )
        expect(holds, f"{name}: {reply!r}")
    else:
        same = without_left(like(reply)) == without_left(like(wanted))
        expect(same, f"{name}: {asked[:60]!r} is answered {reply!r}, wanted {like(wanted)!r}")
    judge.book.work(-1)
    judge.book.shelf.clear()
