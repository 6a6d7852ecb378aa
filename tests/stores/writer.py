"""The program that adds changes, and what sqlite3 finds in its file."""

import os
import random
import resource
import signal
import subprocess
from dataclasses import dataclass

from tests.support.checks import expect


@dataclass(frozen=True)
class Told:
    """What a run printed: how many changes the file held, the turn of the last, the turns that were
    added, the words of a fault, and its status."""

    held: int
    last: int
    added: list[int]
    fault: str
    status: int


def read_told(text: str, status: int) -> Told:
    """What the lines of a run say. A line that was cut is left out."""
    held, last, fault = 0, 0, ""
    added = []
    for line in text[: text.rfind("\n") + 1].splitlines():
        if line.startswith("held "):
            held, last = (int(word) for word in line.split()[1:])
        elif line.isdigit():
            added.append(int(line))
        else:
            fault = line
    return Told(held, last, added, fault, status)


class Writer:
    """Runs the program over files of one folder."""

    def __init__(self, program: str, folder: str, seed: int, rounds: int) -> None:
        self.program = program
        self.folder = folder
        self.draw = random.Random(seed)
        self.rounds = rounds

    def path(self, name: str) -> str:
        """A file of the folder."""
        return os.path.join(self.folder, name)

    def words(self, path: str, changes: int, size: int) -> list[str]:
        """The command that adds so many changes of so many bytes."""
        return [self.program, path, str(changes), str(size)]

    def run(self, path: str, changes: int, size: int, most: int | None = None) -> Told:
        """Adds changes, each file being at most so long, and says what was printed."""

        def bounded() -> None:
            # A write beyond the bound is to fail, and not to end the program.
            signal.signal(signal.SIGXFSZ, signal.SIG_IGN)
            if most is not None:
                resource.setrlimit(resource.RLIMIT_FSIZE, (most, most))

        ran = subprocess.run(
            self.words(path, changes, size),
            stdout=subprocess.PIPE,
            stderr=subprocess.DEVNULL,
            text=True,
            timeout=60,
            check=False,
            preexec_fn=bounded,
        )
        return read_told(ran.stdout, ran.returncode)

    def killed(self, path: str, size: int, seconds: float) -> Told:
        """Adds changes until it is killed after some time."""
        with subprocess.Popen(
            self.words(path, 1_000_000, size), stdout=subprocess.PIPE, text=True
        ) as run:
            try:
                run.wait(seconds)
            except subprocess.TimeoutExpired:
                run.kill()
            assert run.stdout is not None
            text = run.stdout.read()
        return read_told(text, run.returncode)


def asked(path: str, text: str) -> list[str]:
    """The lines that sqlite3 answers."""
    ran = subprocess.run(
        ["sqlite3", path, text], stdout=subprocess.PIPE, text=True, timeout=60, check=True
    )
    return ran.stdout.splitlines()


def turns_in(path: str) -> list[int]:
    """The turns of a file that sqlite3 finds sound, each with its project and its bytes as the
    program writes them."""
    expect(asked(path, "pragma integrity_check") == ["ok"], f"{path} is not sound")
    tables = asked(path, "select name from sqlite_schema")
    expect(tables in ([], ["change"]), f"{path} has {tables}")
    if not tables:
        return []
    turns = []
    for line in asked(path, "select turn, project, hex(entry) from change order by turn"):
        turn, project, mark = line.split("|")
        expect(int(project) == int(turn) % 8, f"the project of turn {turn}")
        expect(set(bytes.fromhex(mark)) <= {int(turn) % 251}, f"the bytes of turn {turn}")
        turns.append(int(turn))
    return turns
