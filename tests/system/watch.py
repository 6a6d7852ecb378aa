"""The library that notes what a program asks of the system (watching.c), and programs under it."""

import os
import struct
import subprocess
import tempfile
from typing import NamedTuple

from tests.support.programs import need
from tests.support.server import Server

HERE = os.path.dirname(os.path.abspath(__file__))


class Counts(NamedTuple):
    """What a program asked for so far: calls and bytes of reads and of writes, allocations, the
    bytes that they asked for, the bytes that it holds and the most that it held."""

    reads: int
    read_bytes: int
    writes: int
    written_bytes: int
    allocations: int
    asked: int
    held: int
    most: int


EMPTY = bytes(8 * len(Counts._fields))


class Notes:
    """What is noted of one run."""

    def __init__(self, watch: "Watch", **settings: int) -> None:
        self.paths = [watch.file(), watch.file(EMPTY)]
        given = {"WATCH_" + name.upper(): str(value) for name, value in settings.items()}
        given |= {"WATCH_LINES": self.paths[0], "WATCH_COUNTS": self.paths[1]}
        self.environment = {"LD_PRELOAD": watch.library, **given}

    def lines(self, word: str) -> list[list[str]]:
        """The lines that begin with a word, without it, as words."""
        with open(self.paths[0], encoding="ascii") as file:
            split = [line.split() for line in file]
        return [rest for first, *rest in split if first == word]

    def counts(self) -> Counts:
        with open(self.paths[1], "rb") as file:
            return Counts(*struct.unpack(f"{len(Counts._fields)}q", file.read()))


class Run(NamedTuple):
    """A run that has ended."""

    status: int
    output: bytes
    counts: Counts


class Watch:
    """The library, the program and a folder."""

    def __init__(self, program: str, folder: str) -> None:
        self.program, self.folder = program, folder
        self.library = os.path.join(folder, "watching.so")
        need("cc")
        source = os.path.join(HERE, "watching.c")
        words = ["cc", "-O1", "-shared", "-fPIC", "-o", self.library, source, "-ldl"]
        subprocess.run(words, check=True)

    def file(self, data: bytes = b"") -> str:
        """A new file of these bytes."""
        number, path = tempfile.mkstemp(dir=self.folder)
        with os.fdopen(number, "wb") as it:
            it.write(data)
        return path

    def run(self, words: list[str], data: bytes = b"", patience: float = 120) -> Run:
        """Runs the program with these words, in the folder, with the bytes as its input."""
        notes, given = Notes(self), self.file(data)
        with open(given, "rb") as file:
            run = subprocess.run(
                [self.program, *words],
                stdin=file,
                stdout=subprocess.PIPE,
                cwd=self.folder,
                env=os.environ | notes.environment,
                timeout=patience,
                check=False,
            )
        os.remove(given)
        return Run(run.returncode, run.stdout, notes.counts())


class WatchedServer(Server):
    """A server under the library."""

    def __init__(self, watch: Watch, lanes: int = 2, links: int = 0, **settings: int) -> None:
        self.notes = Notes(watch, **settings)
        super().__init__(
            watch.program, lanes=lanes, links=links, environment=self.notes.environment
        )
