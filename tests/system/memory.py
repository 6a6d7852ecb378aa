"""How much memory the program asks for, by the shape of its input: the most that it holds at once,
and all that it asks for. The C library's allocator is counted, so the figures are the same in each
run."""

from collections.abc import Callable
from typing import NamedTuple

from tests.hostile.heads import head_of
from tests.ifc.basics import file_of, pipe, shape, triangle
from tests.ifc.crowds import mapped, placed, shared_storey, sharing, walls
from tests.ifc.limits import with_instances
from tests.ifc.solids import boxes
from tests.shapes.files import clashes, many_rows, upload
from tests.support.checks import expect
from tests.support.client import Client, wait_for_clashes
from tests.support.http import MOMENT, coord_of, rules
from tests.system.watch import Counts, Watch, WatchedServer
from tests.within.files import padded

MB = 1_000_000
LIE = b"PUT /coord/1/projects/x/models/m HTTP/1.1\r\nHost: h\r\nContent-Length: 33554432\r\n\r\n"


class Session(NamedTuple):
    """A session by shape: its bytes, how many megabytes it may hold at once, at most, and how many
    it may ask for in all. The slow ways of the program ask for more than the quick ones."""

    name: str
    make: Callable[[], bytes]
    most: float
    asked: float
    works: bool = False  # whether its clashes are found too


def small_file() -> bytes:
    return file_of(triangle(), shape(), pipe(8, "p" * 22))


def shared_pieces(walls: int, pieces: int) -> bytes:
    """So many pipes that share a shape of one triangle that is mapped so often."""
    start = mapped(pieces).decode()
    more = "".join(pipe(2000 + n, f"{n:022}", of=14) for n in range(1, walls))
    at = start.rindex("ENDSEC;")
    return (start[:at] + more + start[at:]).encode()


def chunked(size: int, count: int) -> bytes:
    """An upload of bytes that are no file, in so many chunks of a size."""
    head = (
        b"PUT %s/models/m HTTP/1.1\r\nHost: h\r\nTransfer-Encoding: chunked\r\n\r\n"
        % coord_of().encode()
    )
    return head + (b"%x\r\n" % size + bytes(size) + b"\r\n") * count + b"0\r\n\r\n"


def fields(count: int) -> bytes:
    """A request with so many fields."""
    lines = b"".join(b"X-%d: a\r\n" % n for n in range(count - 1))
    return b"GET /bcf/3.0/projects HTTP/1.1\r\nHost: h\r\n" + lines + b"\r\n"


SESSIONS = [
    Session("no request", lambda: b"", 0.05, 0.05),
    Session("200 requests of 60 fields", lambda: fields(60) * 200, 0.1, 0.5),
    Session("600 heads of 16,384 bytes", lambda: head_of(16_384) * 600, 0.1, 1.2),
    Session("a length of 32 MiB, and 20,000 bytes", lambda: LIE + b"x" * 20_000, 0.2, 0.3),
    Session("a body of 8 MB that is no file", lambda: upload(bytes(8 * MB)), 10, 19),
    Session("three of them", lambda: upload(bytes(8 * MB)) * 3, 18, 95),
    Session("8 MB in chunks of 10,000 bytes", lambda: chunked(10_000, 800), 10, 20),
    Session("8 MB in chunks of 10 bytes", lambda: chunked(10, 100_000), 1.5, 2.6),
    Session(
        "8 MB, nearly all of it a comment", lambda: upload(padded(small_file(), 8 * MB)), 17, 90
    ),
    Session("boxes", lambda: upload(boxes(4000)), 7.6, 17.5),
    Session("200,000 instances", lambda: upload(with_instances(200_000)), 20, 37),
    Session("a set of 310,000 triangles", lambda: upload(many_rows(310_000)), 19.5, 36),
    Session("a list of 70,000 points", lambda: upload(sharing(1, 70_000)), 3.3, 6.3),
    Session("a set mapped 50,000 times", lambda: upload(mapped(50_000)), 5.5, 10),
    Session("5,000 placed pipes", lambda: upload(placed(5000, 100, 300)), 4.8, 9),
    Session("51,000 walls that share a shape", lambda: upload(walls(51_000)), 19, 42),
    Session("300 pipes of 1,000 shared pieces", lambda: upload(shared_pieces(300, 1000)), 13, 13),
    Session(
        "2,000 walls in a storey with a name of 100,000 bytes",
        lambda: upload(shared_storey(2000, 100_000)),
        1.2,
        2.5,
    ),
    Session("elements in too many cells", lambda: upload(placed(2000, 150_000, 10)), 2, 3.4),
    Session("10,000 buckets", lambda: clashes(placed(1200, 8000, 15000, 40, 2)), 8, 17, True),
]


def sessions(watch: Watch) -> str:
    """Sessions by shape hold no more than their bounds, and ask for no more in all."""
    said = []
    for it in SESSIONS:
        words = ["replay", "--at", str(MOMENT), *([] if it.works else ["--buckets", "0"])]
        run = watch.run(words, it.make())
        expect(run.counts.allocations > 0, "the program has an allocator of its own")
        most, asked = run.counts.most / MB, run.counts.asked / MB
        said.append(f"{it.name} {most:.2f} of {asked:.2f}")
        expect(most <= it.most, f"{it.name}: {most:.2f} MB are held, and {it.most:g} is the bound")
        expect(asked <= it.asked, f"{it.name}: {asked:.2f} MB are asked for, bound {it.asked:g}")
    return ", ".join(said) + " MB"


def no_rules() -> bytes:
    """The body of no rules, by which nothing clashes."""
    return b'{"rules":[]}'


def asked_by(watch: Watch, data: bytes, *words: str) -> Counts:
    """What a session asks for."""
    return watch.run(["replay", "--at", str(MOMENT), *words], data).counts


def requests(watch: Watch) -> str:
    """A small request asks for little memory, and so does a bucket without a clash."""
    one, many = (asked_by(watch, fields(6) * n) for n in (1, 201))
    each = (many.asked - one.asked) / 200
    expect(each < 40_000, f"a request asks for {each:.0f} bytes")
    data, count = clashes(placed(1000, 100, 9000, 32, 2), no_rules()), 500
    work, without = asked_by(watch, data), asked_by(watch, data, "--buckets", "0")
    buckets = (work.allocations - without.allocations) / count
    expect(0 < buckets < 5, f"{buckets:.1f} pieces of memory for a bucket")
    pairs = watch.file(placed(400, 100, 9000, 32, 2))
    run = watch.run(["check", "--rules", watch.file(rules(0)), f"m={pairs}"])
    pieces = run.counts.allocations
    expect(run.status == 0 and pieces < 3700, f"status {run.status}, {pieces} pieces for a check")
    return (
        f"{each:.0f} bytes for a request, {buckets:.1f} pieces for a bucket, {pieces} for a check"
    )


def bucket_pieces(watch: Watch) -> float:
    """How many pieces of memory a worker asks for to check a bucket without a clash."""
    count, asked = 500, []
    with WatchedServer(watch) as it, Client(it) as client:
        client.ask("PUT", f"{coord_of()}/rules", no_rules())
        for version, each in ((2, 1), (3, 2)):
            before = it.notes.counts().allocations
            client.ask("PUT", f"{coord_of()}/models/a", placed(2 * count, 100, 9000, 32, each))
            wait_for_clashes(client, version, pause=0.5)
            asked.append(it.notes.counts().allocations - before)
        it.stop()
    return (asked[1] - asked[0]) / count


def server(watch: Watch) -> str:
    """A server that is idle holds little; versions that are dropped are let go, and so is what a
    long upload took, while its connection stays, and what was replied; a worker asks for little
    memory for a bucket."""
    with WatchedServer(watch) as it, Client(it) as client:
        client.ask("GET", "/bcf/3.0/projects")
        start = it.notes.counts()
        expect(start.most < 3 * MB, f"an idle server holds {start.most / MB:.1f} MB")
        client.ask("PUT", f"{coord_of()}/models/b", bytes(20 * MB))
        client.ask("GET", "/bcf/3.0/projects")
        held = it.notes.counts().held - start.held
        expect(held < MB, f"{held / MB:.1f} MB are held after an upload that was refused")
        client.ask("PUT", f"{coord_of()}/models/a", placed(3000, 100, 9000))
        sizes = []
        for n in range(60):
            client.ask("PUT", f"{coord_of()}/rules", rules(n))
            sizes.append(it.notes.counts().held)
        replied = sum(len(client.ask("GET", f"{coord_of()}/versions/61").reply) for _ in range(20))
        client.ask("GET", "/bcf/3.0/projects")
        kept = it.notes.counts().held - sizes[59]
        expect(kept < replied / 20, f"{kept} bytes are held after replies of {replied} bytes")
        it.stop()
    pieces = bucket_pieces(watch)
    expect(0 < pieces < 12, f"{pieces:.1f} pieces of memory for a bucket")
    first, last = sizes[15] - sizes[0], sizes[59] - sizes[19]
    expect(last < first / 4, f"15 versions took {first} bytes, 40 more took {last}")
    idle = f"{start.most / MB:.2f} MB when idle, {pieces:.1f} pieces for a bucket"
    return f"{idle}, {first} bytes for 15 versions, {last} for 40 more"


MEMORY = [sessions, requests, server]
