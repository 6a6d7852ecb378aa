"""What is at the edges of a server: letters of other alphabets, the clock, workers at work and at
rest."""

import json
import os
import subprocess
import time
from datetime import datetime, timezone
from functools import partial

from tests.ifc.basics import small_pipes
from tests.ifc.crowds import placed
from tests.support.checks import expect
from tests.support.client import Client, in_threads, wait_for_clashes
from tests.support.http import MOMENT, Exchange, coord_of, request, rules, topics_of
from tests.support.one_thread import compared
from tests.support.server import Server

MODELS = f"{coord_of()}/models"


def umlauts(program: str) -> str:
    """Letters of two, three and four bytes in titles, comments and names stay as they are."""
    said = "Tür, 木 und 😀"
    with Server(program) as server:
        client = Client(server)
        made = client.ask("POST", topics_of(), json.dumps({"title": said}).encode(), "Jürgen")
        topic = json.loads(made.reply)
        expect((topic["title"], topic["creation_author"]) == (said, "Jürgen"), f"{made.reply!r}")
        body = b'{"comment":"' + said.encode() + b'"}'
        client.ask("POST", f"{topics_of()}/{topic['guid']}/comments", body, "木")
        client.ask("GET", f"{topics_of()}/{topic['guid']}/comments")
        listed = client.ask("GET", topics_of()).reply
        expect(said.encode() in listed, f"{listed!r}")
        client.close()
    return compared(program, 1, [client.log])


def seconds_of(date: str) -> float:
    """A date as seconds since 1970."""
    read = datetime.strptime(date, "%Y-%m-%dT%H:%M:%SZ")
    return read.replace(tzinfo=timezone.utc).timestamp()


def dates(program: str) -> str:
    """What is made over sockets, and what `replay` makes without a moment, is dated by the
    system's clock, to the second."""
    body = b'{"title":"a"}'
    while time.time() % 60 < 3:  # so that a date that is cut to minutes is seen
        time.sleep(0.2)
    with Server(program) as server, Client(server) as client:
        began = time.time()
        made = json.loads(client.ask("POST", topics_of(), body).reply)["creation_date"]
        ended = time.time()
    expect(int(began) <= seconds_of(made) <= ended, f"{made} is between {began} and {ended}")
    began = time.time()
    words = [program, "replay"]
    run = subprocess.run(
        words, input=request("POST", topics_of(), body), stdout=subprocess.PIPE, check=True
    )
    ended, said = time.time(), run.stdout.partition(b'"creation_date":"')[2][:20].decode()
    expect(int(began) <= seconds_of(said) <= ended, f"{said} is between {began} and {ended}")
    return f"{made} and {said}"


def by_thread(server: Server) -> dict[str, int]:
    """The nanoseconds of a processor that each thread of the server has taken so far."""
    spent = {}
    for number in os.listdir(f"/proc/{server.run.pid}/task"):
        with open(f"/proc/{server.run.pid}/task/{number}/schedstat", encoding="ascii") as file:
            spent[number] = int(file.read().split()[0])
    return spent


def taken(server: Server) -> int:
    """The nanoseconds of a processor that the server has taken so far."""
    return sum(by_thread(server).values())


def one_thread_takes(program: str, file: bytes) -> float:
    """The seconds of a processor that one thread takes for the clashes of a file."""
    data = request("PUT", f"{coord_of()}/rules", rules(0)) + request("PUT", f"{MODELS}/a", file)
    took, command = [], [program, "replay", "--at", str(MOMENT)]
    for command in (command, [*command, "--buckets", "0"]):
        before = os.times()
        subprocess.run(command, input=data, stdout=subprocess.DEVNULL, check=True)
        after = os.times()
        took.append(after.children_user - before.children_user)
    return took[0] - took[1]


def work_taken(program: str, file: bytes, count: int) -> list[int]:
    """The nanoseconds that each thread of a server with so many workers takes for the clashes of a
    file."""
    with Server(program, lanes=1, workers=count) as server, Client(server) as client:
        client.ask("PUT", f"{coord_of()}/rules", rules(0))
        before = by_thread(server)
        client.ask("PUT", f"{MODELS}/a", file)
        wait_for_clashes(client, 2, pause=0.05)
        spent = by_thread(server)
    return [it - before.get(number, 0) for number, it in spent.items()]


def workers(program: str, count: int = 8) -> str:
    """Each of eight workers is at work on a version of crowded buckets, and none is checked by
    many: they take no more than four times what one worker takes for it."""
    file = placed(16 * 400, 100, 9000, 4, 400)
    alone, spent = sum(work_taken(program, file, 1)) / 1e9, work_taken(program, file, count)
    total = sum(spent) / 1e9
    busy = sum(it > 0.01 * sum(spent) for it in spent)
    expect(busy >= count, f"{busy} threads are at work, wanted {count}: {sorted(spent)}")
    expect(total < 4 * alone + 0.5, f"{total:.2f} s are taken, {alone:.2f} s by one worker")
    return f"{busy} threads, {total:.2f} s, {alone:.2f} s by one worker"


def turns(program: str) -> str:
    """A worker takes two turns for each of some thousand buckets, and doesn't wait between them;
    one that has nothing to do looks for it soon."""
    file = placed(2000, 100, 9000, 32, 2)
    alone = one_thread_takes(program, file)
    with Server(program) as server, Client(server) as client:
        began, first = time.monotonic(), client.ask("PUT", f"{coord_of()}/rules", rules(0)).turn
        made = json.loads(client.ask("PUT", f"{MODELS}/a", file).reply)
        last = wait_for_clashes(client, 2, pause=0.05).turn
        took = time.monotonic() - began
        count = made["left"]
        expect(count > 1000, f"{count} buckets")
        used = (last or 0) - (first or 0)
        expect(used < 2.4 * count + 200 * took, f"{used} turns for {count} buckets")
        expect(took < 3 * alone + 5, f"{took:.2f} s for {alone:.2f} s of one thread")
        before = server.spent()
        began = time.monotonic()
        for n in range(20):
            pair = small_pipes(*((10 + 5 * k, f"{k:022}", f"{n}", (n, 0, 0)) for k in range(2)))
            version = json.loads(client.ask("PUT", f"{MODELS}/b", pair).reply)["version"]
            wait_for_clashes(client, version)
        fresh = (time.monotonic() - began) / 20
        used_then = (server.spent() - before) / 20
        expect(fresh < used_then + 0.1, f"{fresh:.3f} s until a fresh upload is checked")
    return (
        f"{used} turns for {count} buckets in {took:.2f} s, {fresh * 1000:.1f} ms for a fresh one"
    )


def idle(program: str, count: int = 8, seconds: float = 1.5) -> str:
    """Eight workers that have nothing to do look for it every five milliseconds, and take less than
    a part of one processor."""
    with Server(program, workers=count) as server, Client(server) as client:
        first = client.ask("GET", topics_of()).turn or 0
        began, before = time.monotonic(), taken(server)
        time.sleep(seconds)
        last = client.ask("GET", topics_of()).turn or 0
        took = time.monotonic() - began
        part = (taken(server) - before) / 1e9 / took
    looks = (last - first) / count / took
    expect(looks < 250 and part < 0.5, f"{looks:.0f} looks a second, {part:.2f} of a processor")
    return f"{looks:.0f} looks of each a second, {part:.3f} of a processor"


def rest(server: Server, patience: float = 120) -> None:
    """Waits until the server has nothing to do."""
    end, before, now = time.monotonic() + patience, 0, taken(server)
    while now - before > 3_000_000:
        expect(time.monotonic() < end, "the server doesn't come to rest")
        time.sleep(0.2)
        before, now = now, taken(server)


def pages(program: str, count: int = 900, times: int = 20) -> str:
    """A version's clashes are listed once: the first page takes the time for it, and those that
    other connections ask for afterwards take a small part of that."""
    pairs = count * (count - 1) // 2
    with Server(program, lanes=2) as server:
        with Client(server) as client:
            client.ask("PUT", f"{coord_of()}/rules", rules(0))
            client.ask("PUT", f"{MODELS}/a", placed(count, 100, 0))
            rest(server)
        spent: list[float] = []
        while len(spent) < 1 + times:
            before = taken(server)
            with Client(server) as client:
                page = f"{coord_of()}/versions/2/clashes?first={pairs - 1}&count=1"
                it = client.ask("GET", page)
            if it.status == 202:
                rest(server)
                continue
            found = json.loads(it.reply)
            expect((it.status, found["total"]) == (200, pairs), f"{it.status} {it.reply[:80]!r}")
            spent.append((taken(server) - before) / 1e6)
    later = sorted(spent[1:])[times // 2]
    expect(
        later < spent[0] / 50, f"{spent[0]:.2f} ms for the first page, {later:.2f} for later ones"
    )
    return f"{spent[0]:.2f} ms for the first page of {pairs} pairs, {later:.2f} for later ones"


def ask_for_a_while(server: Server, seconds: float, counts: list[int]) -> None:
    """Asks for the projects for so many seconds, and notes how often."""
    count, end = 0, time.monotonic() + seconds
    while time.monotonic() < end:
        with Client(server) as client:
            for _ in range(100):  # of the 10,000 requests that a connection may have
                if time.monotonic() < end:
                    client.socket.sendall(Exchange("GET", "/bcf/3.0/projects").bytes_of() * 50)
                    count += len([client.read() for _ in range(50)])
    counts.append(count)


def crowds(program: str, clients: int = 16, seconds: float = 0.7) -> str:
    """A reply takes no more of a processor where sixteen connections ask at once than where one
    does: those that wait for their turn sleep."""
    each = []
    with Server(program, lanes=clients) as server:
        server.connect().close()
        for count in (1, clients):
            before, counts = taken(server), list[int]()
            in_threads([partial(ask_for_a_while, server, seconds, counts)] * count)
            each.append((taken(server) - before) / sum(counts) / 1000)
    said = f"{each[1]:.0f} microseconds for a reply to {clients}, {each[0]:.0f} to one"
    expect(each[1] < 3 * each[0] + 20, said)
    return said


def sources(program: str) -> str:
    """Clients are answered whichever address they come from."""
    asked = Exchange("GET", topics_of()).bytes_of()
    with Server(program, host="0.0.0.0") as server:
        for host in ("127.0.0.1", "127.0.0.2", "127.9.9.9"):
            it = server.connect(source=host)
            it.settimeout(20)
            it.sendall(asked)
            expect(it.recv(1) == b"H", f"no reply to {host}")
            it.close()
        server.stop()
    return "three addresses"
