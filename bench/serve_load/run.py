"""Requests a second of `serve` beside a plain server of threads in Rust (peer.rs, which answers one
topic to each request), in one run, each row for so many seconds: python3 -m bench.serve_load.run
PROGRAM [--peer PEER.rs] [--seconds S]

A row has what is asked, the lanes of the server, the connections, the requests a second, the middle
and the 99th of a hundred waits in microseconds, and for `serve` its requests a second as a part of
the plain server's by as many connections.

- lanes: by 1 to 32 connections, the list of one topic; a page of clashes that the connection was
  answered before (shelved) and one of the newest version (booked);
- uploads: the list while another client uploads models, and how many uploads were answered
  meanwhile;
- topics: a version, both pages and one topic while the project has 10, 1,000 and 10,000 topics.
"""

import os
import shutil
import subprocess
import sys
import tempfile
import threading
from contextlib import suppress

from tests.serve.mind import model
from tests.support.checks import CheckFailed, arguments
from tests.support.client import Client, wait_for_clashes
from tests.support.http import RULES, coord_of, project_id, topics_of
from tests.support.programs import built
from tests.support.server import Server, free_port

FOLDER = os.path.dirname(os.path.abspath(__file__))
TITLE = '{"title":"Pipe"}'
TOPICS, VERSIONS = topics_of(), f"{coord_of()}/versions"
SHELVED, BOOKED = f"{VERSIONS}/2/clashes?count=1", f"{VERSIONS}/newest/clashes?count=1"
LANES = ((4, 1), (4, 4), (8, 8), (32, 8), (32, 32))


def compiled(source: str, folder: str) -> str:
    """A program in Rust, compiled."""
    if not shutil.which("rustc"):
        sys.exit("there is no rustc: apt-get install rustc")
    made = os.path.join(folder, os.path.basename(source).removesuffix(".rs"))
    words = [
        "rustc",
        "--edition",
        "2021",
        "-C",
        "opt-level=3",
        "-C",
        "panic=abort",
        source,
        "-o",
        made,
    ]
    subprocess.run(words, check=True)
    return made


class Load:
    """The program that asks (load.rs), and for how long."""

    def __init__(self, folder: str, seconds: float) -> None:
        self.program, self.seconds = compiled(os.path.join(FOLDER, "load.rs"), folder), seconds

    def said(self, port: int, connections: int, target: str) -> str:
        words = [self.program, str(port), str(connections), str(self.seconds), target]
        return subprocess.run(words, stdout=subprocess.PIPE, text=True, check=True).stdout.strip()

    def row(
        self, name: str, server: Server, lanes: int, connections: int, target: str, plain: float = 0
    ) -> None:
        """Prints a row."""
        said = self.said(server.port, connections, target)
        part = f" {float(said.split()[0]) / plain:.2f}" if plain else ""
        print(f"{name}: {lanes} lanes, {connections} connections: {said}{part}", flush=True)

    def post(self, server: Server, count: int) -> None:
        """Makes so many topics."""
        words = [self.program, str(server.port), "post", str(count), TOPICS, TITLE]
        subprocess.run(words, check=True)


def begun(program: str, lanes: int, file: bytes) -> Server:
    """A server with one topic and a version with clashes that are all checked."""
    server = Server(program, lanes=lanes, workers=2)
    with Client(server) as client:
        client.ask("POST", TOPICS, TITLE.encode())
        client.ask("PUT", f"{coord_of()}/rules", RULES[1])
        client.ask("PUT", f"{coord_of()}/models/a", file)
        wait_for_clashes(client, 2, pause=0.05)
    return server


def by_lanes(program: str, load: Load, port: int, file: bytes) -> None:
    """The rows of 1 to 32 connections, beside the plain server at a port."""
    for lanes, connections in LANES:
        said = load.said(port, connections, TOPICS)
        plain = float(said.split()[0])
        print(f"plain, a topic: {connections} connections: {said}", flush=True)
        with begun(program, lanes, file) as server:
            load.row("list of a topic", server, lanes, connections, TOPICS, plain)
            load.row("shelved page", server, lanes, connections, SHELVED, plain)
            load.row("booked page", server, lanes, connections, BOOKED, plain)


def upload_on(server: Server, file: bytes, done: threading.Event, counts: list[int]) -> None:
    """Uploads a model again and again, each over a connection of its own."""
    with suppress(CheckFailed, OSError):
        while not done.is_set():
            with Client(server) as client:
                client.ask("PUT", f"{coord_of()}/models/b", file)
                counts.append(1)


def beside_uploads(program: str, load: Load, file: bytes) -> None:
    """The row of the list while another client uploads models."""
    done, counts = threading.Event(), list[int]()
    with begun(program, 32, file) as server:
        uploads = threading.Thread(target=upload_on, args=(server, file, done, counts))
        uploads.start()
        load.row("list of a topic beside uploads", server, 32, 8, TOPICS)
        count = len(counts)
        done.set()
        uploads.join()
    print(f"uploads meanwhile: {count}", flush=True)


def by_topics(program: str, load: Load, file: bytes) -> None:
    """The rows while the project has 10 to 10,000 topics."""
    made = 1
    with begun(program, 8, file) as server:
        for count in (10, 1000, 10000):
            load.post(server, count - made)
            made = count
            load.row(f"{count} topics: a version", server, 8, 8, f"{VERSIONS}/2")
            load.row(f"{count} topics: shelved page", server, 8, 8, SHELVED)
            load.row(f"{count} topics: booked page", server, 8, 8, BOOKED)
            load.row(f"{count} topics: a topic", server, 8, 8, f"{TOPICS}/{project_id(1)[:-1]}1")


def main() -> int:
    parser = arguments(__doc__)
    parser.add_argument("--peer", metavar="PEER.rs", default=os.path.join(FOLDER, "peer.rs"))
    parser.add_argument("--seconds", metavar="S", type=float, default=2)
    given = parser.parse_args()
    program, port = built(given.program), free_port()
    file = model(program, 300, 1)
    with tempfile.TemporaryDirectory() as folder:
        load = Load(folder, given.seconds)
        peer = subprocess.Popen(
            [compiled(given.peer, folder), str(port), "3600"], stdout=subprocess.DEVNULL
        )
        try:
            by_lanes(program, load, port, file)
        finally:
            peer.kill()
            peer.wait()
        beside_uploads(program, load, file)
        by_topics(program, load, file)
    return 0


if __name__ == "__main__":
    sys.exit(main())
