"""Lists of as many topics as there may be, by filters and orders as long as they may be, and more
comments than 16 bits count."""

import json
from typing import Any
from urllib.parse import quote

from tests.support.checks import expect
from tests.support.client import Client
from tests.support.http import request, topics_of
from tests.within.asking import Asking

TOPICS = 10_000
COMMENTS = 70_000
VIEWPOINTS = 20_000
AT_ONCE = 100
A_CONNECTION = 9_000  # of the 10,000 requests that one may make
LONGEST = 4096
DEEPEST = 32
NUMBERS = [n * 7919 % TOPICS for n in range(TOPICS)]


def title(number: int) -> str:
    return f"{number:05}"


def post(it: Asking, asked: list[bytes]) -> None:
    """Makes what the requests ask for, many at once, over connections of their own."""
    for start in range(0, len(asked), A_CONNECTION):
        some = asked[start : start + A_CONNECTION]
        with Client(it.server) as client:
            for at in range(0, len(some), AT_ONCE):
                part = some[at : at + AT_ONCE]
                client.socket.sendall(b"".join(part))
                for _ in part:
                    made = client.read()
                    expect(made.status == 201, f"{made.status} {made.body[:200]!r}")


def topic(number: int) -> bytes:
    """The request for a topic of this number."""
    body: dict[str, Any] = {"title": title(number), "priority": str(number % 3)}
    body |= {"stage": str(number % 5), "index": number % 7}
    return request("POST", topics_of(), json.dumps(body).encode())


def titles(it: Asking, **query: str) -> list[str]:
    """The titles of the topics that are listed."""
    asked = "&".join(f"%24{name}={quote(value)}" for name, value in query.items())
    found: list[dict[str, Any]] = it.ask("GET", f"{topics_of()}?{asked}", None, 200)
    return [topic["title"] for topic in found]


def longest_filter() -> tuple[str, list[int]]:
    """A filter of 4,096 bytes, and the numbers of the topics that it keeps."""
    test, between, last = "title eq '{:05}'", " or ", "contains(title,'{}')"
    kept = list(range(0, TOPICS, 50))
    text = between.join(test.format(n) for n in kept) + between
    return text + last.format("x" * (LONGEST - len(text) - len(last.format("")))), kept


def lists(program: str) -> str:
    """10,000 topics are listed, by a filter of 4,096 bytes, one that nests 32 deep, and orders by
    four members."""
    with Asking(program) as it:
        post(it, [topic(n) for n in NUMBERS])
        rising = sorted(title(n) for n in NUMBERS)
        expect(titles(it) == [title(n) for n in NUMBERS], "all topics")
        expect(titles(it, orderby="title") == rising, "all topics by their titles")
        found = titles(it, orderby="title desc", skip="9000", top="3")
        expect(found == rising[999:996:-1], f"three of them: {found}")
        found = titles(it, orderby="priority,stage desc,index,title", top="50")
        members = sorted(NUMBERS, key=lambda n: (n % 3, -(n % 5), n % 7, n))
        expect(found == [title(n) for n in members[:50]], f"by four members: {found}")
        text, kept = longest_filter()
        found = titles(it, filter=text, orderby="title")
        expect(found == [title(n) for n in kept], f"{len(text)} bytes: {found}")
        deep = "(" * (DEEPEST - 1) + "not title lt '09998'" + ")" * (DEEPEST - 1)
        expect(sorted(titles(it, filter=deep)) == rising[9998:], f"{DEEPEST} deep")
        for query, at in ((text + " ", LONGEST), (f"({deep})", DEEPEST)):
            refused = it.ask("GET", f"{topics_of()}?%24filter={quote(query)}", None, 400)
            expect((refused["code"], refused["at"]) == ("H14", at), f"{refused}")
    return f"{TOPICS} topics"


def notes(program: str) -> str:
    """70,000 comments and 20,000 viewpoints of a hundred topics, of which each lists its own."""
    bodies = {"comments": b'{"comment":"c"}', "viewpoints": b'{"components":{"selection":[]}}'}
    with Asking(program) as it:
        post(it, [topic(n) for n in range(100)])
        topics: list[dict[str, Any]] = it.ask("GET", topics_of(), None, 200)
        for part, count in (("comments", COMMENTS), ("viewpoints", VIEWPOINTS)):
            places = [f"{topics_of()}/{topic['guid']}/{part}" for topic in topics]
            post(it, [request("POST", places[n % 100], bodies[part]) for n in range(count)])
            listed = [len(it.ask("GET", place, None, 200)) for place in places]
            expect(listed == [count // 100] * 100, f"{part} that are listed: {listed}")
    return f"{COMMENTS} comments, {VIEWPOINTS} viewpoints"


LISTS = [lists, notes]
