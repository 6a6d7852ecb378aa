"""In which pieces `check`, `generate` and `replay` read and write, and which words they take."""

import os
import subprocess

from tests.ifc.basics import small_pipes
from tests.ifc.solids import boxes
from tests.oracle.commands import USAGE
from tests.support.checks import expect
from tests.support.http import MOMENT, coord_of, request, rules
from tests.system.watch import Watch

BLOCK = 65_536  # bytes that are read or written at once, at most


def is_in_blocks(calls: int, size: int, what: str) -> None:
    """So many bytes went by blocks: by few calls, and not all by one."""
    blocks = size / BLOCK
    expect(blocks - 1 <= calls <= 2 * blocks + 5, f"{calls} {what} of {size} bytes")


def blocks(watch: Watch) -> str:
    """`generate` writes a file of megabytes by blocks as it makes it, and `check` reads it so; a
    session by `replay` is read by pieces of 16,384 bytes."""
    made = watch.run(["generate", "--count", "10000", "--file"])
    expect(made.status == 0 and len(made.output) > 20 * BLOCK, f"status {made.status}")
    is_in_blocks(made.counts.writes, len(made.output), "writes")
    file, given = watch.file(boxes(6000)), watch.file(rules(0))
    size = os.path.getsize(file)
    checked = watch.run(["check", "--rules", given, f"m={file}"])
    expect(checked.status == 0, f"status {checked.status}")
    is_in_blocks(checked.counts.reads, size, "reads")
    expect(
        checked.counts.writes <= len(checked.output) / BLOCK + 2, "its lines are written one by one"
    )
    data = request("PUT", f"{coord_of()}/models/m", made.output)
    session = watch.run(["replay", "--at", str(MOMENT), "--buckets", "0"], data)
    most = len(data) / 16_384 + 5
    expect(session.status == 0 and session.counts.reads <= most, f"{session.counts.reads} reads")
    return f"{made.counts.writes} writes and {checked.counts.reads} reads of {size} bytes"


def many_files(watch: Watch) -> str:
    """`check` of one file, of nine and of 64, of which only the first and the last touch: each
    file is read, and their clash is found."""
    pair = ("0" * 21 + "1", "0" * 21 + "2")
    for count in (2, 9, 64):
        names = [f"m{n:02}" for n in range(count)]
        files = []
        for n in range(count):
            guid = pair[n > 0] if n in (0, count - 1) else f"{n + 10:022}"
            place = (0, 0, 0) if n in (0, count - 1) else (1000 * n, 5000, 0)
            files.append(watch.file(small_pipes((10, guid, "p", place))))
        words = [f"{name}={file}" for name, file in zip(names, files)]
        run = watch.run(["check", "--rules", watch.file(rules(0)), *words])
        wanted = f"{names[0]} {pair[0]} {names[-1]} {pair[1]} 0\nclashes 1\n".encode()
        expect(
            (run.status, run.output) == (0, wanted), f"{count} files: {run.status} {run.output!r}"
        )
    return "2, 9 and 64 files"


def first_refusal(watch: Watch) -> str:
    """`check` judges the files in the order of the words: a bad one before a file that isn't there
    is refused, status 3, and a file that isn't there before a bad one is a failure, status 4."""
    bad, given, none = watch.file(b"no file"), watch.file(rules(0)), f"{watch.folder}/none"
    for files, wanted in (((bad, none), (3, b"a: U1 NotPart21\n")), ((none, bad), (4, b""))):
        words = ["check", "--rules", given, f"a={files[0]}", f"b={files[1]}"]
        run = watch.run(words)
        expect((run.status, run.output) == wanted, f"{files}: {run.status} {run.output!r}")
    return "bad before missing, missing before bad"


def words(watch: Watch) -> str:
    """Words that are no UTF-8 are outside the grammar, as are those with a blank too many, and the
    name of a file may have blanks at its ends."""
    for outside in ([b"check", b"\xff"], [b"\xfe"], [b" version"], [b"replay", b"--at ", b"1"]):
        run = subprocess.run(
            [watch.program.encode(), *outside],
            stdin=subprocess.DEVNULL,
            stdout=subprocess.PIPE,
            timeout=60,
            check=False,
        )
        expect((run.stdout, run.returncode) == USAGE, f"{outside}: {run.returncode} {run.stdout!r}")
    odd = os.path.join(watch.folder, " r .json ")
    with open(odd, "wb") as file:
        file.write(rules(0))
    model = watch.file(small_pipes((10, "1" * 22, "p", (0, 0, 0))))
    found = watch.run(["check", "--rules", " r .json ", f"m={model}"])
    expect((found.status, found.output) == (0, b"clashes 0\n"), f"{found.status} {found.output!r}")
    return "4 outside, a file's name with blanks"
