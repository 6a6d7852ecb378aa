"""The sessions of cases, each sent over a connection of its own, whole or request by request."""

import json
import os
import re
import socket
import threading
import time
from contextlib import suppress

from tests.case_files import HERE, all_cases, chosen, input_of, read
from tests.differences import difference
from tests.support.checks import CheckFailed, expect
from tests.support.client import Client, end_input
from tests.support.http import TURN, coord_of, without_dates
from tests.support.server import Server


def split(data: bytes) -> list[bytes]:
    """The requests of a stream, as far as they are plain; what follows as one piece."""
    pieces: list[bytes] = []
    while data:
        at = data.find(b"\r\n\r\n")
        if at < 0:
            break
        head = data[: at + 4]
        length = re.findall(rb"(?im)^content-length:[ \t]*(\d+)[ \t]*\r$", head)
        if re.search(rb"(?i)transfer-encoding|\n\n", head) or len(length) > 1:
            break
        end = at + 4 + int(length[0] if length else 0)
        if end > len(data):
            break
        pieces.append(data[:end])
        data = data[end:]
    return pieces + ([data] if data else [])


def replies_in(data: bytes) -> int:
    """How many replies have begun, a Continue not counted. Each is one write."""
    return len(re.findall(rb"HTTP/1\.1 (?!100)\d{3} [A-Za-z -]+\r\nContent-Type: ", data))


def settled(client: Client, projects: int) -> None:
    """No version of a project has buckets that are to be checked."""
    for number in range(1, projects + 1):
        v = f"{coord_of(number)}/versions"
        newest = json.loads(client.ask("GET", f"{v}/newest").reply)["version"]
        for version in range(max(newest - 15, 0), newest + 1):
            end = time.monotonic() + 60
            while client.ask("GET", f"{v}/{version}/clashes?count=1").status == 202:
                expect(time.monotonic() < end, "the clashes do not come")
                time.sleep(0.001)
        client.log.clear()


class Reader:
    """A thread that reads a connection to its end."""

    def __init__(self, it: socket.socket) -> None:
        self.it = it
        self.output: list[bytes] = []
        self.thread = threading.Thread(target=self.take)
        self.thread.start()

    def take(self) -> None:
        while True:
            try:
                more = self.it.recv(1 << 16)
            except OSError as fault:
                self.output.append(str(fault).encode())
                return
            if not more:
                return
            self.output.append(more)

    def wait_for(self, count: int) -> None:
        """Waits until so many replies have begun, or for two seconds."""
        end = time.monotonic() + 2
        while (
            replies_in(b"".join(self.output)) < count
            and time.monotonic() < end
            and self.thread.is_alive()
        ):
            time.sleep(0.0005)

    def all(self) -> bytes:
        self.thread.join(60)
        expect(not self.thread.is_alive(), "the connection stays open")
        return b"".join(self.output)


def send_session(
    it: socket.socket, data: bytes, other: Client | None, projects: int, reader: Reader
) -> None:
    """Sends a session whole; or request by request, each once all buckets are checked, as another
    client asks."""
    with suppress(OSError):
        for number, piece in enumerate(split(data) if other else [data], 1):
            it.sendall(piece)
            if other:
                reader.wait_for(number)
                settled(other, projects)
    end_input(it)


def same_but_turns(output: bytes) -> bytes:
    return TURN.sub(b"X-Book-Turn: \r\n", without_dates(output))


def projects_in(words: list[str]) -> int:
    """How many projects a run has, by its words."""
    given = " ".join(words).replace("=", " ").split()
    return int(given[given.index("--projects") + 1]) if "--projects" in given else 1


def session(program: str, path: str) -> None:
    """Sends a case's session over a connection of a server of its own."""
    folder = os.path.join(HERE, path)
    data, wanted = input_of(folder), read(folder, "stdout")
    projects = projects_in(read(folder, "args").decode().splitlines())
    with Server(program, lanes=2, workers=2, links=1, projects=projects) as server:
        other = Client(server) if b"/coord/1/" in data else None
        it = server.connect()
        reader = Reader(it)
        send_session(it, data, other, projects, reader)
        got = reader.all()
        it.close()
        (other or Client(server)).close()
        expect(server.status() == 0, f"status {server.run.returncode}")
    turns = [int(n) for n in TURN.findall(got)]
    expect(turns == sorted(turns), f"turns fall: {turns}")
    if same_but_turns(got) != same_but_turns(wanted):
        raise CheckFailed("\n    ".join(difference(same_but_turns(got), same_but_turns(wanted))))


def is_session(path: str) -> bool:
    """Whether a case is a session that a server answers as a replay does."""
    folder = os.path.join(HERE, path)
    words = read(folder, "args").decode().splitlines()
    by_all_buckets = "--buckets" not in " ".join(words)
    return words[:1] == ["replay"] and int(read(folder, "status")) != 2 and by_all_buckets


def cases(program: str, group: str) -> str:
    """The sessions of the cases of a group, each sent over a connection."""
    paths = [path for path in chosen(all_cases(), [group]) if is_session(path)]
    failed = []
    for path in paths:
        try:
            session(program, path)
        except CheckFailed as fault:
            failed.append((path, str(fault)))
    for path, text in failed[:20]:
        print(f"  case {path}: {text}")
    expect(paths and not failed, f"{len(failed)} of {len(paths)} sessions differ")
    return f"{len(paths)} sessions"
