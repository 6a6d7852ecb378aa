"""Floods of long bodies, files at the limits, and memory that is refused."""

import json
import time
from functools import partial

from tests import oracle
from tests.hostile.flood import MIB, Flood, beside, bounded
from tests.ifc.basics import small_pipes
from tests.ifc.crowds import long_name, plates
from tests.ifc.limits import with_instances, with_values
from tests.ifc.polygons import listed_faces
from tests.support.checks import expect
from tests.support.client import Client, in_threads, reset, wait_for_clashes
from tests.support.http import RULES, Exchange, coord_of, take_response, topics_of
from tests.support.one_thread import check_replies
from tests.support.server import Server

MODELS, VERSIONS = f"{coord_of()}/models", f"{coord_of()}/versions"
MOST_INSTANCES, MOST_VALUES = 1_000_000, 8_000_000


def long_body(server: Server, size: int, kind: int) -> None:
    """A body of so many bytes that is no file: by length, in chunks, or one that never ends."""
    head = f"PUT {MODELS}/a HTTP/1.1\r\nHost: h\r\n"
    head += "Transfer-Encoding: chunked\r\n\r\n" if kind == 1 else f"Content-Length: {size}\r\n\r\n"
    block = b"%x\r\n" % MIB + bytes(MIB) + b"\r\n" if kind == 1 else bytes(MIB)
    it = server.connect()
    it.sendall(head.encode())
    for _ in range(size // MIB - (kind == 2)):
        it.sendall(block)
    if kind == 1:
        it.sendall(b"0\r\n\r\n")
    if kind == 2:
        time.sleep(0.2)
    else:
        got = take_response(it.recv(1 << 16))
        expect(got and got.status == 422 and b'"U1"' in got.body, f"{got}")
    reset(it)


def bodies(flood: Flood, lanes: int = 5) -> str:
    """The longest bodies on all lanes but two at once, by length and in chunks, which are no files,
    and one that never ends. Each lane holds its own alone, and gives it back."""
    size, times = flood.much(8 * MIB, 32 * MIB), flood.much(2, 5)
    with Server(flood.program, lanes=lanes) as server:
        server.connect().close()

        def large() -> None:
            for _ in range(times):
                in_threads([partial(long_body, server, size, n % 3) for n in range(lanes - 2)])

        logs, others = beside(server, 2, large)
        check_replies(flood.program, 1, logs)
        taken = bounded(server, lanes - 2, body=size, book=MIB)
        server.stop()
    return f"{lanes - 2} bodies of {size / MIB:.0f} MiB at once, {others}, {taken}"


def is_no_memory(it: Exchange) -> None:
    """A request was answered that memory is out."""
    expect(
        it.status == 503 and json.loads(it.reply)["code"] == "M1", f"{it.status} {it.reply[:80]!r}"
    )


def refused_reply(flood: Flood, lanes: int) -> None:
    """A version whose list is longer than memory lasts, and a body whose tree is, are answered 503,
    and all else goes on."""
    deep = b'{"title":"a","x":[' + (b'{"":' * 125 + b"1" + b"}" * 125 + b",") * 6500 + b"1]}"
    with Server(flood.program, lanes=lanes, space=112 * MIB) as server:
        with Client(server) as client, Client(server) as other:
            expect(
                client.ask("PUT", f"{MODELS}/a", long_name(200, MIB)).status == 201, "no version"
            )
            for _ in range(3):
                is_no_memory(client.ask("GET", f"{VERSIONS}/1"))
                made = other.ask("POST", topics_of(), b'{"title":"beside"}')
                expect(made.status == 201, "no topic beside it")
            is_no_memory(client.ask("POST", topics_of(), deep))
            expect(client.ask("DELETE", f"{MODELS}/a").turn, "the model stays")
            expect(len(json.loads(client.ask("GET", topics_of()).reply)) == 3, "not three topics")
        server.stop()


def wait_for_refusal(server: Server) -> int:
    """Waits until a worker had much memory and gave it back. The most that the server took."""
    least, most, deadline = 0, 0, time.monotonic() + 120
    while most < 32 * MIB or least > most / 2:
        expect(time.monotonic() < deadline, "memory is not refused")
        least = server.memory("VmRSS")
        most = max(least, most)
        time.sleep(0.002)
    return most


def wait_for_left(client: Client, wanted: int, patience: float = 60) -> None:
    """Waits until so many buckets of the second version are left to be checked."""
    end = time.monotonic() + patience
    while True:
        found = client.ask("GET", f"{VERSIONS}/2/clashes")
        expect(found.status == 202, "the clashes are there")
        if json.loads(found.reply)["left"] == wanted:
            return
        expect(time.monotonic() < end, f"{found.reply[:80]!r}")
        time.sleep(0.05)


def refused_work(flood: Flood, lanes: int) -> int:
    """A version with more pairs than memory lasts stays to be checked, and the worker goes on with
    its other bucket and with versions after it. The most that the server took."""
    with Server(flood.program, lanes=lanes, space=112 * MIB) as server:
        with Client(server) as client:
            client.ask("PUT", f"{coord_of()}/rules", RULES[1])
            places = [(1500, 1500, 1500)] * 3000 + [(101_500, 1500, 1500)] * 2
            heap = small_pipes(*((10 + 10 * n, f"{n:022}", "p", it) for n, it in enumerate(places)))
            expect(client.ask("PUT", f"{MODELS}/b", heap).status == 201, "no version")
            most = wait_for_refusal(server)
            wait_for_left(client, 1)
            client.ask("DELETE", f"{MODELS}/b")
            client.ask("PUT", f"{MODELS}/c", small_pipes(*oracle.BLOCKS[1]))
            found = wait_for_clashes(client, 4, pause=0.02)
            expect(json.loads(found.reply)["total"] == 1, f"{found.reply[:80]!r}")
        server.stop()
    return most


def wanting(flood: Flood, lanes: int = 3) -> str:
    """A version whose list is longer than memory lasts, a body whose tree is, and a version with
    more pairs than it lasts: the first two are answered 503, the third stays to be checked, and all
    else goes on, on the lanes and at the worker, also of versions made after them."""
    refused_reply(flood, lanes)
    most = refused_work(flood, lanes)
    return f"a worker was refused more than {most / MIB:.0f} MiB, and went on"


def is_too_many(it: Exchange, what: str) -> None:
    """An upload was refused since it has too many of something."""
    wanted = b'{"code":"U19","message":"U19 TooMany","what":"%s"}' % what.encode()
    expect(it.status == 422 and it.reply == wanted, f"{it.status} {it.reply[:80]!r}")


def listed(flood: Flood, lanes: int = 3) -> str:
    """Files of some hundred kilobytes whose sets list one face again and again, so that they have
    millions of triangles: they are refused for these, in memory for no more than a million, and
    others are answered meanwhile. A set that has nearly a million makes a model."""
    file = listed_faces(flood.much(40, 400), 1002)
    with Server(flood.program, lanes=lanes, space=160 * MIB) as server:
        with Client(server) as client:

            def upload() -> None:
                for _ in range(5):
                    is_too_many(client.ask("PUT", f"{MODELS}/a", file), "triangles")

            logs, others = beside(server, 1, upload)
            made = client.ask("PUT", f"{MODELS}/b", listed_faces(1, 1001))
            expect(made.status == 201, "no version of 998,998 triangles")
        check_replies(flood.program, 1, logs)
        size = server.memory()
        server.stop()
    return f"{len(file) / 1000:.0f} KB, {others}, {size / MIB:.0f} MiB"


def spread(flood: Flood, lanes: int = 3) -> str:
    """Elements at the ends of the greatest model: two small ones at opposite corners, and two
    plates as wide as it is, one at its foot and one at its head. The cells between them, which hold
    nothing, cost nothing: each upload takes the processor for less than its bound."""
    corners = [(10, f"{1:022}", "a", (-799_000,) * 3), (20, f"{2:022}", "b", (799_000,) * 3)]
    files = {"corners": (small_pipes(*corners), 0.01), "plates": (plates(-798_000, 798_000), 0.15)}
    said, times = [], flood.much(20, 200)
    with Server(flood.program, lanes=lanes) as server:
        with Client(server) as client:
            for what, (file, bound) in files.items():
                began = server.spent()
                for _ in range(times):
                    it = client.ask("PUT", f"{MODELS}/a", file)
                    expect(it.status in (200, 201), f"{it.status} {it.reply[:80]!r}")
                took = (server.spent() - began) / times
                expect(took < bound, f"{what}: {took * 1000:.1f} ms, more than {bound * 1000:.0f}")
                said.append(f"{what} {took * 1000:.1f} ms")
        server.stop()
    return ", ".join(said)


def at_limits(flood: Flood, lanes: int = 3) -> str:
    """A file with as many instances, or as many values, as a file may have makes a version; with
    one more it is refused."""
    took = []
    kinds = (("instances", with_instances, MOST_INSTANCES), ("values", with_values, MOST_VALUES))
    with Server(flood.program, lanes=lanes) as server:
        with Client(server) as client:
            for what, write, most in kinds:
                for count in (most, most + 1):
                    file, began = write(count), time.monotonic()
                    it = client.ask("PUT", f"{MODELS}/a", file)
                    took.append(time.monotonic() - began)
                    if count > most:
                        is_too_many(it, what)
                    else:
                        expect(it.status in (200, 201), f"{it.status} {it.reply[:80]!r}")
        size = server.memory()
        server.stop()
    return f"each answered within {max(took):.1f} s, {size / MIB:.0f} MiB"
