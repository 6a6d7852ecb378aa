"""The rows of `serve`: reads, writes, accepts, what opens the doors, threads and allocations of a
server fail."""

import socket
import time
from collections import Counter
from functools import partial

from tests import oracle
from tests.failing.session import PROJECT, SESSION, TOPICS, Judge, judge_loosely, like
from tests.failing.tool import FOR_EVER, FailingServer, Tool
from tests.ifc.basics import small_pipes
from tests.support.checks import CheckFailed, expect
from tests.support.http import MOMENT, NO_MEMORY, replies_in, request, take_response
from tests.support.server import HOST

ON_TOPICS = [request("POST", TOPICS, b'{"title":"Pipe"}'), request("GET", TOPICS)]
Talk = tuple[list[bytes] | None, bytes]


def say(it: socket.socket, requests: list[bytes], replies: list[bytes]) -> bytes:
    """Sends the requests one after another, and collects the replies that came whole. What came
    after them."""
    got = b""
    for asked in requests:
        it.sendall(asked)
        while (found := take_response(got)) is None:
            more = it.recv(1 << 16)
            if not more:
                return got
            got += more
        replies.append(got[: len(got) - len(found.rest)])
        got = found.rest
    it.shutdown(socket.SHUT_WR)
    while more := it.recv(1 << 16):
        got += more
    return got


def talk(server: FailingServer, requests: list[bytes]) -> Talk:
    """Sends the requests one after another over a connection of its own, and gives the replies to
    them that came whole, and what came after; no replies where there is no connection."""
    try:
        it = server.connect(10)
    except CheckFailed:
        return None, b""
    it.settimeout(20)
    replies: list[bytes] = []
    with it:
        try:
            return replies, say(it, requests, replies)
        except (ConnectionResetError, BrokenPipeError):
            return replies, b""


def listed(reply: bytes) -> int:
    """How many topics a reply lists."""
    return reply.count(b'"server_assigned_id"')


def one_link(tool: Tool, plain: list[bytes], kind: str, most: int, number: int) -> None:
    """One read or write of a connection fails: it ends there, what it made is there, and the next
    one is served."""
    with FailingServer(tool, kind, most=most, first=number, last=number, error=104) as server:
        first, rest = talk(server, ON_TOPICS)
        second, left = talk(server, ON_TOPICS[1:])
        status = server.status(20)
    name = f"{kind} {number} of {most} bytes fails"
    expect(status == 0, f"{name}: status {status}")
    expect(first is not None and second is not None, f"{name}: no connection")
    first, second = first or [], second or []
    same = [like(it) for it in first] == plain[: len(first)]
    expect(same and (kind == "write" or rest == b""), f"{name}: {first} {rest!r}")
    if len(first) == 2 and second == []:
        return
    expect(
        len(second) == 1 and left == b"",
        f"{name}: the next connection is answered {second} {left!r}",
    )
    made = listed(second[0])
    expect(
        made <= 1 and (made == 1) >= (len(first) > 0),
        f"{name}: {len(first)} replies, {made} topics",
    )
    if kind == "write":
        expect(made == 1, f"{name}: what the connection made is gone")


def serve_links(tool: Tool) -> str:
    """Each read and each write of a connection fails: it ends there, what it made is there, and the
    next one is served."""
    plain = [like(it) for it in replies_in(oracle.replay(b"".join(ON_TOPICS), 1, MOMENT)[0])[0]]
    seen = []
    for kind in ("read", "write"):
        most = tool.chance.randint(15, 40)
        with FailingServer(tool, kind, most=most) as server:
            expect(talk(server, ON_TOPICS)[0] and talk(server, ON_TOPICS[1:])[0], "no replies")
            expect(server.status() == 0, f"status {server.run.returncode}")
            count = server.calls()
        expect(count > 5, f"{count} calls of {kind}")
        one = partial(one_link, tool, plain, kind, most)
        for it in [tool.workers.submit(one, number) for number in tool.drawn(count)]:
            it.result()
        seen.append(f"{min(count, tool.some or count)} of {count} {kind}s")
    return ", ".join(seen)


def opens(server: FailingServer, patience: float = 20) -> bool:
    """Whether the server comes to listen; else it has ended."""
    end = time.monotonic() + patience
    while server.run.poll() is None:
        expect(time.monotonic() < end, "the server neither listens nor ends")
        try:
            socket.create_connection((HOST, server.port), 5).close()
            return True
        except ConnectionRefusedError:
            time.sleep(0.01)
    return False


def one_door(tool: Tool, kind: str, error: int, number: int) -> tuple[bool, bool]:
    """One of the calls that open the doors or set connections up fails. Whether there was one of
    that number, and whether it ended the server."""
    name = f"{kind} {number} fails"
    with FailingServer(tool, kind, first=number, last=number, error=error) as server:
        if not opens(server):
            expect(server.status() == 4, f"{name}: status {server.run.returncode}")
            return True, True
        answered = [talk(server, ON_TOPICS)[0] for _ in range(3)]
        expect(server.status(20) == 0, f"{name}: status {server.run.returncode}")
        expect([it for it in answered if it and len(it) == 2], f"{name}: {answered}")
        return server.calls() >= number, False


def serve_doors(tool: Tool) -> str:
    """Calls that open the doors, accept connections and set them up fail, one at a time: an address
    that can't be listened at ends the server with status 4; a connection that can't be accepted or
    set up is passed over, and the next ones are served. Where accepts go on failing, the doors
    fail, and the status is 4."""
    seen = []
    for kind, error, least in (
        ("door", 98, 3),
        ("option", 92, 4),
        ("handle", 24, 2),
        ("accept", 103, 1),
    ):
        closed, number = 0, 1
        while number < 100:
            was_there, ended = one_door(tool, kind, error, number)
            if not was_there:
                break
            closed, number = closed + ended, number + 1
        expect(number > least, f"{number - 1} calls of {kind}")
        seen.append(f"{number - 1} of {kind}, {closed} of which end it")
    for it in [tool.workers.submit(accepts_fail, tool, *how) for how in ((1, 1), (3, 1), (1, 2))]:
        it.result()
    return ", ".join(seen)


def accepts_fail(tool: Tool, lanes: int, first: int) -> None:
    """All accepts fail from one on: the server ends by status 4, with the connections before it
    served."""
    with FailingServer(tool, "accept", lanes=lanes, first=first, last=FOR_EVER, error=24) as server:
        served = first == 1 or len(talk(server, ON_TOPICS)[0] or []) == 2
        expect(served, "the first connection is not served")
        expect(
            server.status() == 4, f"accepts from {first} on fail: status {server.run.returncode}"
        )


def serve_threads(tool: Tool) -> str:
    """The system makes no thread, or not the one of a number: the lanes are served all the same,
    one after another."""
    for number, last in ((1, 1), (2, 2), (3, 3), (4, 4), (1, FOR_EVER)):
        with FailingServer(
            tool, "thread", links=1, lanes=3, workers=2, first=number, last=last
        ) as server:
            answered = [talk(server, ON_TOPICS)[0] for _ in range(3)]
            name = f"thread {number} is not made"
            expect([len(it or []) for it in answered] == [2, 2, 2], f"{name}: {answered}")
            expect(server.status(20) == 0, f"{name}: status {server.run.returncode}")
    return "none made, and one of four not made"


def one_allocation(tool: Tool, requests: list[bytes], number: int, on: bool) -> str:
    """An allocation of a server is refused, alone or with all after it. How that ended."""
    name = f"allocation {number}{' and all after' if on else ''}"
    last = FOR_EVER if on else number
    with FailingServer(tool, "memory", links=1, first=number, last=last, error=12) as server:
        replies, rest = talk(server, requests)
        status = server.status(20)
    expect(status in (0, 4, 6), f"{name}: status {status}")
    expect(rest == b"", f"{name}: {rest!r} after {len(replies or [])} replies")
    if replies is None:
        expect(status in (4, 6), f"{name}: no connection, status {status}")
        return f"status {status} before a connection"
    expect(status != 4 or replies == [], f"{name}: status 4 after {len(replies)} replies")
    judge = Judge()
    for asked, reply in zip(requests, replies):
        judge_loosely(judge, asked, reply, name)
    whole = len(replies) == len(requests)
    expect(whole or status != 0, f"{name}: {len(replies)} replies, status {status}")
    return f"status {status}" + (" after 503" if NO_MEMORY in replies else "")


def serve_memory(tool: Tool) -> str:
    """Allocations of a server are refused, alone and with all after them."""
    requests = [SESSION[0], SESSION[1], SESSION[3], SESSION[4], SESSION[5], *SESSION[7:]]
    with FailingServer(tool, "memory", links=1) as server:
        replies, _ = talk(server, requests)
        expect(len(replies or []) == len(requests), "the session is not answered")
        expect(server.status() == 0, f"status {server.run.returncode}")
        count = server.calls()
    expect(count > 300, f"{count} allocations")
    one = partial(one_allocation, tool, requests)
    jobs = [
        tool.workers.submit(one, number, on) for on in (False, True) for number in tool.drawn(count)
    ]
    ends = Counter(job.result() for job in jobs)
    seen = ", ".join(f"{n} {end}" for end, n in sorted(ends.items()))
    return f"{len(jobs)} runs of some {count} allocations: {seen}"


PAIRS = 900
STEPS = 24


def undone(tool: Tool, upload: bytes, number: int) -> bool:
    """All allocations from one on are refused, and the only connection ends once its upload is
    answered. Whether it was accepted, and the server ended by status 6."""
    with FailingServer(tool, "memory", links=1, first=number, last=FOR_EVER, error=12) as server:
        replies, _ = talk(server, [upload])
        status = server.status(20)
    expect(status in (0, 4, 6), f"from allocation {number} on: status {status}")
    return status == 6 and replies is not None and any(b" 201 " in it[:13] for it in replies)


def serve_undone(tool: Tool) -> str:
    """A server has no memory for the buckets that are left when its last connection ends. Its
    worker ends all the same, and the status is 6."""
    pairs = [(n % 30, n // 30, z) for n in range(PAIRS) for z in (0, 50)]
    places = [(9_000 * x, 9_000 * y, z) for x, y, z in pairs]
    model = small_pipes(*((10 + 5 * n, f"{n:022}", "p", at) for n, at in enumerate(places)))
    upload = request("PUT", f"{PROJECT}/models/m", model)
    with FailingServer(tool, "memory", links=1) as server:
        replies, _ = talk(server, [upload])
        expect(len(replies or []) == 1, "the upload is not answered")
        expect(server.status() == 0, f"status {server.run.returncode}")
        count = server.calls()
    jobs = [
        tool.workers.submit(undone, tool, upload, count * step // STEPS) for step in range(1, STEPS)
    ]
    left = sum(job.result() for job in jobs)
    expect(left > 0, f"no run of {len(jobs)} left a bucket")
    return f"{left} of {len(jobs)} runs left buckets"
