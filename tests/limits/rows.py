"""The rows: each fills one server up to some limits."""

import json

from tests.ifc.crowds import crowded, nameless, placed
from tests.limits.table import COORD, MB, Table
from tests.oracle import SMALL_FILE
from tests.support.checks import expect
from tests.support.http import Exchange, request, rules, topics_of
from tests.support.server import Server

GIB = 1 << 30
SMALL_TOPIC = b'{"title":"a"}'


def elements(program: str, scale: float) -> None:
    """16 versions of 100,000 elements, uploaded in one file, and one element more."""
    count = int(100000 * scale)
    file = placed(count, 100, 3000)
    with Server(program, lanes=3) as server:
        table = Table(server)
        table.ask(
            f"{count:,} elements in {len(file) / MB:.1f} MB", "PUT", f"{COORD}/models/m", file, 201
        )
        table.checked("that version", 1)
        for n in range(2, 17):
            name = f"version {n}, by rules" if n in (2, 16) else None
            table.ask(name, "PUT", f"{COORD}/rules", rules(n), 200)
        table.checked("version 16", 16)
        table.ask("the version's elements", "GET", f"{COORD}/versions/16")
        table.ask("topics beside", "GET", topics_of())
        if scale == 1:
            table.ask("one element more", "PUT", f"{COORD}/models/n", SMALL_FILE, 507)
        table.ask("the model goes", "DELETE", f"{COORD}/models/m", None, 200)


def memberships(program: str, scale: float) -> None:
    """Elements in just under 2,000,000 cells, and in more."""
    count, model = int(100000 * scale), f"{COORD}/models/m"
    with Server(program, lanes=3) as server:
        table = Table(server)
        if scale == 1:
            table.ask(
                f"{count:,} elements of 9,000 mm", "PUT", model, placed(count, 9000, 3170), 507
            )
        table.ask(f"{count:,} elements of 8,600 mm", "PUT", model, placed(count, 8600, 3170), 201)
        table.checked("that version", 1)


def journal(program: str, scale: float) -> None:
    """Two pipes at each place, in cells of their own, so that nearly a million buckets are to be
    checked; new rules then, until the journal has no room for the buckets of one version more, and
    hasn't once all are checked either."""
    count = int(100000 * scale)
    with Server(program, lanes=3) as server:
        table = Table(server)
        file = placed(count, 8000, 15000, 100, 2)
        made = table.ask(f"{count:,} elements", "PUT", f"{COORD}/models/m", file, 201)
        print(f"  {made['left']:,} buckets", flush=True)
        for n in range(1, 20):
            it = table.client.ask("PUT", f"{COORD}/rules", rules(n))
            if it.status != 200:
                break
        took = f"{it.status} after {it.came - it.sent:.3f} s, {it.reply[:100].decode()}"
        print(f"  new rules, number {n}: {took}", flush=True)
        table.checked("the newest version", n)
        if scale == 1:
            for old in range(1, n):
                table.checked(None, old)
            table.ask("new rules, once all is checked", "PUT", f"{COORD}/rules", rules(0), 507)
            table.ask("a topic", "POST", topics_of(), SMALL_TOPIC, 201)


def pairs(program: str, scale: float) -> None:
    """A million pairs, and many more, of pipes at one place."""
    for count in (int(1415 * scale**0.5), int(10000 * scale**0.5)):
        with Server(program, lanes=3) as server:
            table, file = Table(server), placed(count, 100, 0)
            table.ask(None, "PUT", f"{COORD}/rules", rules(0), 200)
            table.ask(f"{count:,} pipes at one place", "PUT", f"{COORD}/models/m", file, 201)
            table.checked("that version", 2)


def topics(program: str, scale: float) -> None:
    """10,000 topics, 100,000 comments and 20,000 viewpoints, and one more of each."""
    count, all_topics = int(10000 * scale), topics_of()
    with Server(program, lanes=3) as server:
        table = Table(server)
        table.fill(
            "topics", [request("POST", all_topics, b'{"title":"%d"}' % n) for n in range(count)]
        )
        ids = [it["guid"] for it in table.ask("the list of topics", "GET", all_topics)]

        def on_all(part: str, body: bytes, times: int) -> list[bytes]:
            targets = (f"{all_topics}/{ids[n % count]}/{part}" for n in range(times * count))
            return [request("POST", target, body) for target in targets]

        first, last = f"{all_topics}/{ids[0]}", f"{all_topics}/{ids[-1]}"
        table.fill("comments", on_all("comments", b'{"comment":"c"}', 10))
        table.fill("viewpoints", on_all("viewpoints", b'{"components":{"selection":[]}}', 2))
        if scale == 1:
            table.ask("one topic more", "POST", all_topics, b'{"title":"more"}', 507)
            table.ask("one comment more", "POST", f"{first}/comments", b'{"comment":"more"}', 507)
            table.ask("one viewpoint more", "POST", f"{first}/viewpoints", b"{}", 507)
        table.ask("one topic", "GET", last, None, 200)
        table.ask("a topic changed", "PUT", last, b'{"title":"new"}', 200)
        table.ask("the comments of a topic", "GET", f"{last}/comments", None, 200)
        table.ask("a topic gone", "DELETE", first, None, 200)


def components(program: str, scale: float) -> None:
    """Viewpoints of one topic, each of 1,000 components that are empty, until their texts, counted
    with 256 bytes a component, are a GiB; and their list, which has a number for each."""
    body = b'{"components":{"selection":[' + b",".join([b"{}"] * 1000) + b"]}}"
    with Server(program, lanes=3) as server:
        table = Table(server)
        topic = f"{topics_of()}/{table.ask(None, 'POST', topics_of(), SMALL_TOPIC, 201)['guid']}"
        views = [request("POST", f"{topic}/viewpoints", body)] * int(4194 * scale)
        table.fill("viewpoints of 1,000 components", views)
        table.ask("their list", "GET", f"{topic}/viewpoints", None, 200)
        table.ask("the topic goes, with them", "DELETE", topic, None, 200)


def triangles(program: str, scale: float) -> None:
    """Models of a million triangles each, up to 40,000,000, and one more."""
    with Server(program, lanes=3) as server:
        table = Table(server)
        table.put_so_often("1,000,000 triangles", crowded(1000), max(1, int(40 * scale)))
        if scale == 1:
            table.ask("one triangle more", "PUT", f"{COORD}/models/n", SMALL_FILE, 507)


def uploads(program: str, scale: float) -> None:
    """Models of 100,000 elements without names, of which each upload is kept: until their texts,
    counted with 64 bytes an element, are a GiB."""
    file = nameless(100000)
    with Server(program, lanes=3) as server:
        table = Table(server)
        table.put_so_often("100,000 elements", file, max(1, int(153 * scale)))
        if scale == 1:
            table.ask("once more", "PUT", f"{COORD}/models/m", file, 507)


def changes(program: str, scale: float) -> None:
    """A topic that is changed again and again, with eight texts that take more room than they have
    bytes and a user whose name isn't counted, until the texts are a GiB."""
    words = (
        "title",
        "topic_type",
        "topic_status",
        "priority",
        "assigned_to",
        "stage",
        "description",
    )
    members = dict({name: "b" * 24 for name in words}, labels=["b" * 24])
    body = json.dumps(members, separators=(",", ":")).encode()
    with Server(program, lanes=3) as server:
        table = Table(server)
        topic = f"{topics_of()}/{table.ask(None, 'POST', topics_of(), body, 201)['guid']}"
        change = Exchange("PUT", topic, body, "u" * 128).bytes_of()
        table.fill("changes of a topic", [change] * (int(GIB * scale) // len(body) - 10))
        if scale == 1:
            for _ in range(10):
                it = table.client.ask("PUT", topic, body)
            expect(it.status == 507, f"{it.status} {it.reply[:200]!r}")
        table.ask("the topic", "GET", topic, None, 200)
