"""Which addresses and options the server asks for, how long silence lasts, and in which pieces it
reads and writes."""

import os
import socket
import subprocess
import time

from tests.ifc.basics import small_pipes
from tests.serve.slow import ask_unread
from tests.support.checks import expect
from tests.support.client import Client, fill
from tests.support.http import Exchange, coord_of, topics_of
from tests.system.watch import Notes, Watch, WatchedServer

SECOND = 1_000_000
NODELAY, RECEIVE, SEND = "6 1", "1 20", "1 21"  # level and name as Linux has them


def bound_by(watch: Watch, words: list[str]) -> list[list[str]]:
    """The addresses that a server binds by these words, each at a port of the system's choice."""
    notes = Notes(watch, port=0)
    with subprocess.Popen(
        [watch.program, "serve", *words],
        env=os.environ | notes.environment,
        stdin=subprocess.DEVNULL,
        stdout=subprocess.DEVNULL,
    ) as run:
        end = time.monotonic() + 30
        while not (found := notes.lines("bind")) and run.poll() is None:
            expect(time.monotonic() < end, "no address is bound")
            time.sleep(0.01)
        time.sleep(0.1)
        found = notes.lines("bind")
        run.kill()  # which may have ended: not every machine has an address of IPv6
    return found


def address(watch: Watch) -> str:
    """Without an address the server listens on the loopback at port 8080 alone, else where the
    words say."""
    kinds = ("127.0.0.1 8080", "127.0.0.1 18080", "0.0.0.0 8080", "0.0.0.0 18080", "::1 18080")
    for kind in kinds:
        host, port = kind.split()
        given = f"[{host}]:{port}" if ":" in host else f"{host}:{port}"
        words = [] if kind == kinds[0] else ["--addr", given]
        found = bound_by(watch, words)
        expect(found == [[host, port]], f"{words}: {found}")
    return f"{len(kinds)} addresses"


def options(watch: Watch) -> str:
    """Each connection sends small pieces at once, and its reads and writes wait for 60 seconds."""
    times = 6
    with WatchedServer(watch) as server:
        for n in range(times):
            with Client(server) as client:
                client.ask("POST", topics_of(), b'{"title":"%d"}' % n)
        server.stop()
        asked = server.notes.lines("option")
    set_to: dict[str, list[str]] = {NODELAY: [], RECEIVE: [], SEND: []}
    for level, name, value in asked:
        set_to.setdefault(f"{level} {name}", []).append(value)
    minute = str(60 * SECOND)
    expect(set_to[NODELAY] == ["1"] * times, f"TCP_NODELAY is set to {set_to[NODELAY]}")
    expect(set_to[SEND] == [minute] * times, f"writes wait for {set_to[SEND]}")
    expect(set_to[RECEIVE].count(minute) == times, f"reads wait for {set_to[RECEIVE]}")
    return f"{times} connections"


def answered_after(server: WatchedServer, patience: float) -> float:
    """After how many seconds a connection of its own is answered."""
    began, it = time.monotonic(), server.connect()
    it.settimeout(patience)
    it.sendall(Exchange("GET", topics_of()).bytes_of())
    expect(it.recv(1) == b"H", "no reply")
    it.close()
    return time.monotonic() - began


def drip(it: socket.socket, data: bytes, seconds: float) -> None:
    """Sends the bytes, one after another, over so many seconds."""
    for byte in data:
        it.sendall(bytes([byte]))
        time.sleep(seconds / len(data))


def silence(watch: Watch) -> str:
    """Where a minute is two seconds: clients that send nothing, or a part of a request, or don't
    read, hold their lanes for that long, and are let go then; one that sends a byte now and then
    for twice as long is answered."""
    hurry, minute = 30, 2.0
    with WatchedServer(watch, lanes=3, hurry=hurry) as server:
        with Client(server) as first:
            fill(first, 100)
        quiet, half, stuck = (server.connect() for _ in range(3))
        half.sendall(b"GET /bcf/3.0/projects HTTP/1.1\r\nHost: h")
        ask_unread(stuck, 0.5, 1 << 30)
        took = answered_after(server, 20)
        expect(0.4 * minute < took < 3 * minute, f"a lane is free after {took:.1f} s")
        expect(quiet.recv(1) == b"" and half.recv(1) == b"", "bytes for a silent client")
        slow = Client(server)
        drip(slow.socket, Exchange("GET", topics_of()).bytes_of(), 2 * minute)
        expect(len(slow.read().body) > 100_000, "the slow client is not answered")
        server.is_up()
        others = [server.connect() for _ in range(2)]
        for it in others:
            it.settimeout(8 * minute)
            it.sendall(Exchange("GET", topics_of()).bytes_of())
        expect(
            [it.recv(1) for it in others] == [b"H"] * 2, "who doesn't read keeps a lane for good"
        )
        slow.close()
        for it in (quiet, half, stuck, *others):
            it.close()
    return f"a lane was free after {took / minute:.1f} minutes"


REFUSED = b"GET / HTTP/9.9\r\n\r\n"


def is_cut(it: socket.socket, count: int) -> bool:
    """Whether a connection is closed before so many megabytes more are sent."""
    try:
        for _ in range(count):
            it.sendall(bytes(1 << 20))
    except (ConnectionResetError, BrokenPipeError):
        return True
    return False


def parted(watch: Watch) -> str:
    """A client that is refused is let go: one that stays silent within a second, where a minute is
    two seconds, and one that goes on sending once it has sent as much as an upload has."""
    minute = 2.0
    with WatchedServer(watch, lanes=1, hurry=30) as server:
        quiet = server.connect()
        quiet.sendall(REFUSED)
        expect(quiet.recv(9) == b"HTTP/1.1 ", "no reply")
        took = answered_after(server, 20)
        expect(took < minute / 4, f"the lane of a silent client is free after {took:.2f} s")
        flood = server.connect()
        flood.sendall(REFUSED)
        expect(is_cut(flood, 200), "200 MB are taken of a client that was refused")
        for it in (quiet, flood):
            it.close()
        server.is_up()
    return f"a lane was free after {took / minute:.3f} minutes"


def pieces(watch: Watch) -> str:
    """A server reads a long upload by thousands of bytes, and writes a reply by one call, or a long
    one by few."""
    block = (
        (10 + 10 * n, f"{n:022}", "p", (n % 100 * 300, n // 100 * 300, 0)) for n in range(3000)
    )
    file = small_pipes(*block)
    with WatchedServer(watch) as server:
        with Client(server) as client:
            before = server.notes.counts()
            made = client.ask("PUT", f"{coord_of()}/models/a", file)
            after = server.notes.counts()
            expect(made.status == 201, f"{made.status} {made.reply[:80]!r}")
            reads, size = after.reads - before.reads, after.read_bytes - before.read_bytes
            expect(size >= len(file), f"{size} bytes are read of {len(file)}")
            expect(reads <= size / 1000 + 50, f"{reads} reads of {size} bytes")
            for target in ("/bcf/3.0/projects", "/nowhere", f"{coord_of()}/versions/1"):
                before = server.notes.counts()
                reply = client.ask("GET", target).reply
                after = server.notes.counts()
                writes = after.writes - before.writes
                expect(writes <= 1 + len(reply) / 5000, f"{writes} writes of {len(reply)} bytes")
        server.stop()
    return f"{reads} reads of {size} bytes"
