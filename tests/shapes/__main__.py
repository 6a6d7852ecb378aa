"""Compares what inputs cost by their shape with what plain ones of the same size cost in the same
run. Each is meant for one of the quick ways of the program: without that way it takes many times as
long, or as much memory, and all answers stay.

    python3 -m tests.shapes PROGRAM [--loose F] [WORD ..]

A session of each shape is replayed, and its seconds of a processor, less those of a session without
requests, are divided by what a plain session of its kind takes for as many bytes: files beside
boxes, clashes beside pipes by twos, requests beside small topics, and pieces beside small topics
that come, as they do, a byte at a time. That part must not be above the bound of the row, which is
some three times what was seen. A row above it is measured again before it counts. All, or those
with one of the words in their name. With --loose bounds are so many times as high, for a program
that isn't proved, and so is slow.
"""

import os
import subprocess
import sys
import tempfile
from collections.abc import Callable
from functools import partial
from statistics import median
from typing import NamedTuple

from tests.failing.tool import Tool
from tests.shapes.files import CLASHES, FILES, PIECES, PLAIN, REQUESTS, Shape
from tests.support.checks import arguments, expect, run_rows
from tests.support.http import MOMENT, replies_in
from tests.support.programs import built

AGAIN = 2  # how often a row above its bound is measured again
RUNS = 3
PLAIN_RUNS = 7
KINDS = {"files": FILES, "clashes": CLASHES, "requests": REQUESTS, "pieces": PIECES}


class Taken(NamedTuple):
    """Seconds of a processor, and the output."""

    seconds: float
    output: bytes


def once(program: str, data: str, buckets: str | None, more: dict[str, str]) -> Taken:
    """Replays the session in a file, with more of an environment."""
    words = [program, "replay", "--at", str(MOMENT)]
    words += ["--buckets", buckets] if buckets else []
    with open(data, "rb") as given, subprocess.Popen(
        words, stdin=given, stdout=subprocess.PIPE, env=os.environ | more
    ) as run:
        output = run.stdout.read() if run.stdout else b""
        _, status, usage = os.wait4(run.pid, 0)
        run.returncode = os.waitstatus_to_exitcode(status)
    expect(run.returncode == 0, f"the replay ended with {run.returncode}")
    return Taken(usage.ru_utime + usage.ru_stime, output)


def least(program: str, data: str, buckets: str | None, more: dict[str, str]) -> Taken:
    """The quickest of some runs, or the first where it takes a second."""
    runs = [once(program, data, buckets, more)]
    while len(runs) < RUNS and runs[0].seconds < 1:
        runs.append(once(program, data, buckets, more))
    return min(runs)


class Bench:
    """The program, a folder, and what plain sessions take for a byte."""

    def __init__(self, program: str, folder: str, loose: float) -> None:
        self.program, self.folder, self.loose = program, folder, loose
        self.by_bytes = Tool(program, folder, 0, None).settings("read", most=1)
        self.nothing = least(program, self.file(b""), None, {}).seconds
        self.plain = {kind: self.for_a_byte(kind, make()) for kind, make in PLAIN.items()}

    def file(self, data: bytes) -> str:
        number, path = tempfile.mkstemp(dir=self.folder)
        with os.fdopen(number, "wb") as it:
            it.write(data)
        return path

    def seconds(self, kind: str, data: str) -> tuple[float, bytes]:
        """What a session takes: of clashes the work alone, of others all but that."""
        if kind == "clashes":
            whole, output = least(self.program, data, None, {})
            return max(whole - least(self.program, data, "0", {}).seconds, 0.0001), output
        more = self.by_bytes if kind == "pieces" else {}
        whole, output = least(self.program, data, "0", more)
        return max(whole - self.nothing, 0.0001), output

    def for_a_byte(self, kind: str, data: bytes) -> float:
        """What a plain session takes for a byte: the middle of some measures, since each is a small
        difference."""
        path = self.file(data)
        taken = median(self.seconds(kind, path)[0] for _ in range(PLAIN_RUNS))
        os.remove(path)
        return taken / len(data)

    def row(self, kind: str, shape: Shape) -> str:
        """Compares one shape with plain sessions of its kind."""
        data = shape.make()
        size, path, part, bound = len(data), self.file(data), 0.0, shape.bound * self.loose
        for _ in range(1 + AGAIN):
            seconds, output = self.seconds(kind, path)
            last = replies_in(output)[0][-1]
            expect(last.startswith(shape.answer), f"the last reply is {last[:200]!r}")
            part = min(part or 1e9, seconds / size / self.plain[kind])
            if part <= bound:
                break
        os.remove(path)
        said = f"{size / 1e6:.2f} MB, {seconds * 1000:.0f} ms, {part:.2f} times plain ones"
        expect(part <= bound, f"{said}, and {bound:g} is the bound")
        return said


def main() -> int:
    parser = arguments(__doc__)
    parser.add_argument("--loose", metavar="F", type=float, default=1, help="what bounds are times")
    parser.add_argument("words", metavar="WORD", nargs="*")
    given = parser.parse_intermixed_args()
    program, words = built(given.program), given.words
    with tempfile.TemporaryDirectory() as folder:
        bench = Bench(program, folder, given.loose)
        rows: dict[str, Callable[[], str]] = {
            it.name: partial(bench.row, kind, it)
            for kind, shapes in KINDS.items()
            for it in shapes
            if not words or any(word in it.name for word in words)
        }
        return run_rows(rows)


if __name__ == "__main__":
    sys.exit(main())
