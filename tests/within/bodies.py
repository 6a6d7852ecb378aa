"""The longest bodies, texts, rules and words, and as many lanes and workers as there may be."""

import json
import subprocess
import tempfile
from functools import partial

from tests.ifc.basics import file_of, pipe, shape, small_pipes, triangle
from tests.oracle.commands import USAGE
from tests.support.checks import expect
from tests.support.client import Client, in_threads
from tests.support.http import Exchange, coord_of, rules, topics_of
from tests.support.one_thread import compared
from tests.support.server import Server
from tests.within.asking import COORD, Asking
from tests.within.files import MOST_BYTES, padded

MOST_BODY = 4_194_304
TEXTS = ("topic_type", "topic_status", "priority", "assigned_to", "stage", "description")


def filled(start: bytes, end: bytes, size: int) -> bytes:
    """So many bytes of JSON: a start, blanks and an end."""
    return start + b" " * (size - len(start) - len(end)) + end


def longest(program: str) -> str:
    """Bodies of 4,194,304 and of 33,554,432 bytes, texts as long as they may be, with letters of
    two to four bytes, and a viewpoint of 1,000 components."""
    title = "Tür 木 😀 " + "ü" * 500
    topic = {
        "title": title.ljust(1024 - len(title.encode()) + len(title)),
        "labels": ["ß" * 128] * 20,
    }
    topic |= {name: "木" * 1365 + "." for name in TEXTS}
    parts = {"selection": [{"ifc_guid": f"{n:022}"} for n in range(1000)]}
    with Asking(program) as it:
        it.ask("POST", topics_of(), filled(b'{"title":"a"', b"}", MOST_BODY), 201)
        it.ask("PUT", f"{COORD}/rules", filled(rules(5)[:-1], b"}", MOST_BYTES), 200)
        made = it.ask("POST", topics_of(), json.dumps(topic, ensure_ascii=False).encode(), 201)
        expect(all(made[name] == text for name, text in topic.items()), f"{made}")
        place = f"{topics_of()}/{made['guid']}"
        expect(it.ask("GET", place, None, 200) == made, "another topic is read")
        it.ask("POST", f"{place}/comments", b'{"comment":"%s"}' % ("é" * 4096).encode(), 201)
        it.ask("POST", f"{place}/viewpoints", json.dumps({"components": parts}).encode(), 201)
        author = it.client.ask("POST", topics_of(), b'{"title":"b"}', "ü" * 64)
        expect(json.loads(author.reply)["creation_author"] == "ü" * 64, f"{author.reply!r}")
    return f"bodies of {MOST_BODY} and {MOST_BYTES} bytes"


def most_rules(program: str) -> str:
    """200 rules, of which each has the longest names, and the last fits."""
    other = {
        "a": "A" * 64,
        "b": "B" * 64,
        "distance": 1000,
        "storey": "different",
        "level": "é" * 128,
    }
    last = {"a": "*", "b": "*", "distance": 7}
    with Asking(program) as it:
        body = json.dumps({"rules": [other] * 199 + [last]}, ensure_ascii=False).encode()
        it.ask("PUT", f"{COORD}/rules", body, 200)
        file = small_pipes(*((10 + 5 * n, f"{n:022}", "p", (0, 0, 7 * n)) for n in range(3)))
        it.upload(file, 3)
        found = it.clashes(2)
        kinds = {(pair["rule"], pair["distance"]) for pair in found["clashes"]}
        expect(found["total"] == 2 and kinds == {(199, 7)}, f"{found}")
    return "200 rules"


def all_lanes(program: str) -> str:
    """32 lanes and 8 workers: 32 connections at once are each answered, by turns, while all others
    stay open."""
    lanes = 32
    with Server(program, lanes=lanes, workers=8) as server:
        clients = [Client(server) for _ in range(lanes)]
        for n in range(3):
            for client in clients:
                client.ask("POST", topics_of(), b'{"title":"%d"}' % n)
        in_threads([partial(it.ask, "GET", topics_of()) for it in clients])
        for client in clients:
            client.close()
        logs = [client.log for client in clients]
        server.stop()
    return compared(program, 1, logs)


def many_connections(program: str) -> str:
    """A lane serves 1,100 connections, one after another, and then the server ends with status 0,
    since it was to serve so many."""
    count = 1100
    with Server(program, lanes=1, links=count) as server:
        for n in range(count):
            it = server.connect()
            it.sendall(Exchange("GET", "/bcf/3.0/projects").bytes_of())
            expect(it.recv(1 << 16).startswith(b"HTTP/1.1 200 "), f"connection {n} isn't answered")
            it.close()
        expect(server.status() == 0, f"status {server.run.returncode}")
    return f"{count} connections"


def pipelined(program: str) -> str:
    """Uploads of eight megabytes over one connection, sent at once, are each answered."""
    file = padded(file_of(triangle(), shape(), pipe(8, "p" * 22)), 8_000_000)
    with Server(program, lanes=1) as server, Client(server, 120) as client:
        asked = [Exchange("PUT", f"{coord_of()}/models/m{n}", file) for n in range(4)]

        def send() -> None:
            client.socket.sendall(b"".join(it.bytes_of() for it in asked))

        def read() -> None:
            for it in asked:
                client.note(it)

        in_threads([send, read])
        expect([it.status for it in asked] == [201] * 4, f"{[it.status for it in asked]}")
        server.stop()
    return "4 uploads of 8,000,000 bytes"


def commands(program: str) -> str:
    """`check` of a file of 33,554,432 bytes, and `generate` of 10,000 elements, as a file and as
    numbers."""
    with tempfile.TemporaryDirectory() as folder:
        with open(f"{folder}/r", "wb") as file:
            file.write(rules(0))
        with open(f"{folder}/m", "wb") as file:
            file.write(padded(file_of(triangle(), shape(), pipe(8, "p" * 22)), MOST_BYTES))
        kinds = {
            "check --rules r m=m": b"clashes 0\n",
            "generate --count 10000": b"elements 10000\ntriangles 120000\nclashes ",
            "generate --count 10000 --file": b"ISO-10303-21;\n",
        }
        for words, start in kinds.items():
            run = subprocess.run(
                [program, *words.split()], cwd=folder, stdout=subprocess.PIPE, check=False
            )
            said = run.stdout[: len(start)]
            expect((run.returncode, said) == (0, start), f"{words}: {run.returncode} {said!r}")
        more = [program, "generate", "--count", "10001"]
        run = subprocess.run(more, stdout=subprocess.PIPE, check=False)
        expect((run.stdout, run.returncode) == USAGE, f"10001: {run.returncode} {run.stdout!r}")
    return "check and generate"


BODIES = [commands, longest, most_rules, all_lanes, many_connections, pipelined]
