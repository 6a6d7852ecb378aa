"""Compares the reading of files by `check` with that of a plain program, and ends with status 1
where it is slower or takes more memory than the bounds allow.

    python3 -m tests.reading PROGRAM [--plain PLAIN] [--small | --full] [--bound B] [--peak P]
                             [--runs N] [FILE ..]

PLAIN is a program that reads an IFC file with no proof and prints `read_cold_s`, the seconds from
the bytes in memory to the triangles; it is called as `PLAIN FILE 0 --reps 1 --lex 0`. It may be a
source in C or Rust, which is compiled first. Without it `plain_reader.c`, beside this script, is
taken.

Files are made here, of about 4 MB and boxes of 11, with --full all of 4, 11 and 28 MB, with --small
all of 1 MB: boxes, tubes, boxes with property sets that no one follows, walls that share a shape of
one triangle, boxes in chains of ten placements, boxes in inches, combs as polygonal faces; boxes
whose last index is bad, so that the upload is refused; and each FILE. What PROGRAM spends on
reading is the processor's time of a check that is refused at a second file, less that of one which
is refused at the first byte of a file of that size, so that both are timed from the bytes in
memory; of PLAIN it is what it prints, times the part of its whole run that it had a processor. The
least of several runs of each, by turns. Where PLAIN doesn't read a file, as those with placements,
inches or polygons, its speed on boxes of about that size is taken in its place, and no bound is
asked of them. B is the least part of PLAIN's speed that is allowed; a file below it is measured
again before it counts. P is the greatest peak of memory in sizes of the file, asked of files of
more than 10 MB only: the peak of a program counts what Python had when it began it.
"""

import argparse
import math
import os
import re
import shutil
import subprocess
import sys
import tempfile
import time
from typing import NamedTuple

from tests.reading.files import KINDS, SIZES, write
from tests.support.checks import arguments
from tests.support.programs import built, need

BOUND = 0.3  # the least part of the plain program's speed
# How often a file that seems too slow is measured again, since other work slows either program.
AGAIN = 2
RUNS = 5
PLAIN = os.path.join(os.path.dirname(os.path.abspath(__file__)), "plain_reader.c")
RUST = [
    "rustc",
    "--edition",
    "2021",
    "-C",
    "opt-level=3",
    "-C",
    "codegen-units=1",
    "-C",
    "panic=abort",
]


class Run(NamedTuple):
    """A run of a program: the processor's seconds, their part of the whole, the peak in bytes, the
    output."""

    spent: float
    part: float
    peak: int
    output: bytes


class Reading(NamedTuple):
    """Seconds of reading by both programs, and the peak of memory. None where the plain one doesn't
    read the file."""

    ours: float
    theirs: float | None
    peak: int


def run(words: list[str], folder: str) -> Run:
    start = time.perf_counter()
    with subprocess.Popen(
        words, cwd=folder, stdout=subprocess.PIPE, stderr=subprocess.DEVNULL
    ) as child:
        output = child.stdout.read() if child.stdout else b""
        _, status, usage = os.wait4(child.pid, 0)
        child.returncode = os.waitstatus_to_exitcode(status)
    spent = usage.ru_utime + usage.ru_stime
    return Run(spent, min(1, spent / (time.perf_counter() - start)), usage.ru_maxrss * 1024, output)


def compiled(plain: str, folder: str) -> str:
    """The plain program, compiled where its source is given."""
    made, source = os.path.join(folder, "plain"), os.path.abspath(plain)
    if plain.endswith(".c"):
        need("cc")
        words = ["cc", "-O3", "-w", source, "-o", made]
    elif plain.endswith(".rs"):
        words = [*RUST, source, "-o", made]
        if not shutil.which("rustc"):
            sys.exit(f"there is no rustc to compile {plain}")
    else:
        return source
    subprocess.run(words, stderr=subprocess.DEVNULL, check=True)
    return made


def seconds_in(output: bytes) -> float | None:
    """The seconds of reading that the plain program prints, or none where it reads no such file."""
    found = re.search(rb"\bread_cold_s ([0-9.]+)", output)
    return float(found.group(1)) if found else None


class Comparison:
    """Both programs, and what was seen so far. `pace` is the plain program's speed on the last
    boxes."""

    def __init__(self, given: argparse.Namespace, folder: str) -> None:
        self.bound, self.peak, self.runs, self.folder = given.bound, given.peak, given.runs, folder
        self.program, self.plain = built(given.program), compiled(given.plain, folder)
        self.pace = math.nan
        self.passed = self.failed = 0
        with open(os.path.join(folder, "bad"), "w", encoding="ascii") as file:
            file.write("no file")
        with open(os.path.join(folder, "r.json"), "w", encoding="ascii") as file:
            file.write('{"rules":[{"a":"*","b":"*","distance":0}]}')

    def check(self, models: list[str], wanted: bytes) -> Run:
        """A run of `check` that is refused as it must be."""
        found = run([self.program, "check", "--rules", "r.json", *models], self.folder)
        if not found.output.startswith(wanted):
            sys.exit(f"{models}: {found.output[:200]!r}, wanted {wanted!r}")
        return found

    def measured(self, name: str, is_bad: bool) -> Reading:
        none = os.path.join(self.folder, "none")
        shutil.copyfile(os.path.join(self.folder, name), none)
        with open(none, "r+b") as file:
            file.write(b"no file")
        empty, ours, theirs = [], [], []
        for _ in range(self.runs):
            empty.append(self.check(["z=none"], b"z: U1 ").spent)
            ours.append(self.check(["m=" + name, "z=bad"], b"m: U14 " if is_bad else b"z: U1 "))
            plain = run([self.plain, name, "0", "--reps", "1", "--lex", "0"], self.folder)
            seconds = seconds_in(plain.output)
            if seconds:
                theirs.append(seconds * plain.part)
        spent = max(min(it.spent for it in ours) - min(empty), 0.0001)
        return Reading(spent, min(theirs, default=None), min(it.peak for it in ours))

    def compare(self, name: str, kind: str) -> None:
        """Prints how both read a file, and notes what is beyond a bound."""
        size, is_bad = os.path.getsize(os.path.join(self.folder, name)) / 1e6, kind == "refused"
        ours, theirs, peak = self.measured(name, is_bad)
        for _ in range(AGAIN):
            if theirs is not None and not is_bad and theirs / ours < self.bound:
                again = self.measured(name, is_bad)
                ours, peak = min(ours, again.ours), min(peak, again.peak)
                theirs = min(theirs, again.theirs or theirs)
        if kind == "boxes" and theirs is not None:
            self.pace = size / theirs
        sizes, reads = peak / 1e6 / size, theirs is not None and not is_bad
        part = theirs / ours if theirs is not None and reads else size / ours / self.pace
        slow, large = (
            reads and part < self.bound,
            bool(self.peak) and size > 10 and sizes > self.peak,
        )
        self.passed, self.failed = self.passed + (not slow and not large), self.failed + (
            slow or large
        )
        speed = (
            f"{1000 * ours:.0f} ms, {size / ours:.0f} MB/s, {part:.2f} of the plain program's speed"
        )
        speed += "" if reads else " on boxes"
        text = f"{name}: {size:.1f} MB, {speed}, peak {sizes:.1f} sizes of the file"
        print(f"{text}{', TOO SLOW' if slow else ''}{', TOO LARGE' if large else ''}", flush=True)


def asked_for(given: argparse.Namespace) -> list[tuple[str, str]]:
    """The sizes and kinds of the files that are made."""
    if given.small:
        return [("1", kind) for kind in KINDS]
    if given.full:
        return [(size, kind) for size in SIZES if size != "1" for kind in KINDS]
    return [("4", kind) for kind in KINDS] + [("11", "boxes")]


def main() -> int:
    parser = arguments(__doc__)
    parser.add_argument("files", metavar="FILE", nargs="*")
    parser.add_argument("--plain", default=PLAIN)
    sizes = parser.add_mutually_exclusive_group()
    sizes.add_argument("--small", action="store_true")
    sizes.add_argument("--full", action="store_true")
    parser.add_argument("--bound", metavar="B", type=float, default=BOUND)
    parser.add_argument("--peak", metavar="P", type=float)
    parser.add_argument("--runs", metavar="N", type=int, default=RUNS)
    given = parser.parse_intermixed_args()
    with tempfile.TemporaryDirectory() as folder:
        comparison = Comparison(given, folder)
        for size, kind in asked_for(given):
            name = f"{kind}{size}"
            path = os.path.join(folder, name)
            write(path, kind, size)
            comparison.compare(name, kind)
            os.remove(path)
        for number, path in enumerate(given.files):
            name = f"{number}_{os.path.basename(path)}"
            os.symlink(os.path.abspath(path), os.path.join(folder, name))
            comparison.compare(name, "given")
    print(f"{comparison.passed} passed, {comparison.failed} failed")
    return 1 if comparison.failed or not comparison.passed else 0


if __name__ == "__main__":
    sys.exit(main())
