"""Turns that one connection printed, given on others."""

import json
from functools import partial
from random import Random

from tests.serve.mind import model
from tests.support.checks import expect
from tests.support.client import Client, in_threads, wait_for_clashes
from tests.support.http import Exchange, coord_of, rules, topics_of
from tests.support.one_thread import Log, compared
from tests.support.server import Server

FAR = 10**14  # no server of these tests comes to this turn
Made = tuple[int, str]  # a topic: the turn that made it, and its identifier


def expect_ahead(it: Exchange) -> None:
    """The request was refused since its turn wasn't served before."""
    wanted = {"code": "K13", "message": "K13 TurnAhead", "given": it.given, "turn": it.turn}
    expect((it.status, json.loads(it.reply)) == (409, wanted), f"{it.given}: {it.reply!r}")


def expect_known(it: Exchange, made: list[Made]) -> None:
    """The reply is of a turn above the given one, and lists each topic that was made up to it."""
    expect(it.status == 200, f"given {it.given}: {it.status} {it.reply[:200]!r}")
    expect((it.turn or 0) > (it.given or 0), f"turn {it.turn}, given {it.given}")
    listed = {topic["guid"] for topic in json.loads(it.reply)}
    lost = [guid for turn, guid in made if turn <= (it.given or 0) and guid not in listed]
    expect(not lost, f"given {it.given}, and {lost} isn't listed")


def make_and_read(server: Server, logs: list[Log], made: list[Made], seed: int) -> None:
    """One of many clients, by chance: it makes a topic; or it lists all, and gives the last turn
    that any of them was printed for a topic, or one that is far ahead."""
    chance = Random(seed)
    with Client(server) as client:
        for _ in range(40):
            if chance.random() < 0.4:
                it = client.ask("POST", topics_of(), b'{"title":"%d"}' % seed)
                made.append((it.turn or 0, json.loads(it.reply)["guid"]))
            elif chance.random() < 0.2:
                expect_ahead(client.ask("GET", topics_of(), given=FAR))
            else:
                known = list(made)
                last = max((turn for turn, _ in known), default=0)
                expect_known(client.ask("GET", topics_of(), given=last), known)
        logs.append([it for it in client.log if it.status != 409])


def read_again(program: str, client: Client, other: Client) -> None:
    """Clashes that a connection was answered before: with a turn that another one printed later
    they are asked for in the book, and with its own last turn they are those that are kept."""
    client.ask("PUT", f"{coord_of()}/rules", rules(500))
    made = client.ask("PUT", f"{coord_of()}/models/a", model(program, 60, 1))
    version = json.loads(made.reply)["version"]
    first = wait_for_clashes(client, version)
    target = f"{coord_of()}/versions/{version}/clashes"
    later = other.ask("GET", topics_of())
    booked = client.ask("GET", target, given=later.turn)
    expect((booked.turn or 0) > (later.turn or 0), f"turn {booked.turn}, given {later.turn}")
    kept = client.ask("GET", target, given=booked.turn)
    expect(kept.turn == booked.turn, f"turn {kept.turn}, and {booked.turn} was printed last")
    ahead = client.ask("GET", target, given=FAR)
    expect_ahead(ahead)
    again = client.ask("GET", target, given=ahead.turn)
    expect(again.turn == ahead.turn, f"turn {again.turn}, and {ahead.turn} was printed last")
    for it in (booked, kept, again):
        expect((it.status, it.reply) == (200, first.reply), f"{it.status} {it.reply[:200]!r}")


def given(program: str) -> str:
    """A reply knows all that was made up to the turn that its request gives, whichever connection
    printed it, or says that it doesn't."""
    logs: list[Log] = []
    made: list[Made] = []
    with Server(program, lanes=8, workers=2) as server:
        jobs = [partial(make_and_read, server, logs, made, seed) for seed in range(6)]
        in_threads(list(jobs))
        with Client(server) as client, Client(server) as other:
            read_again(program, client, other)
            logs += [[it for it in log if it.status != 409] for log in (client.log, other.log)]
    return f"{compared(program, 1, logs)}, {len(made)} topics"
