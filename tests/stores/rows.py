"""What stops a store."""

import os
import shutil
import subprocess

from tests.stores.writer import Told, Writer, asked, turns_in
from tests.support.checks import expect


def expect_kept(path: str, before: int, told: Told) -> None:
    """The file has the changes from before and those whose turns were printed, and at most one
    more."""
    turns = turns_in(path)
    count = before + len(told.added)
    expect(told.added == list(range(before + 1, count + 1)), f"the turns rise by one: {told.added}")
    expect(turns == list(range(1, len(turns) + 1)), f"each turn once: {turns}")
    expect(len(turns) in (count, count + 1), f"{len(turns)} changes where {count} were added")


def killed(writer: Writer) -> str:
    """It is killed again and again while it adds to one file."""
    path = writer.path("killed.db")
    before = 0
    for _ in range(writer.rounds):
        told = writer.killed(path, writer.draw.randrange(2000), writer.draw.uniform(0.005, 0.4))
        expect(told.held in (0, before), f"{told.held} changes were held, and {before} were there")
        expect_kept(path, before, told)
        before = len(turns_in(path))
    expect(before > 0, "it had time for a change")
    told = writer.run(path, 1, 10)
    expect((told.held, told.status) == (before, 0), "a last start finds all")
    return f"{writer.rounds} rounds, {before} changes"


def cut(writer: Writer) -> str:
    """Its log is cut at any byte: a front of the changes is left."""
    whole = writer.path("whole.db")
    program = subprocess.Popen(
        writer.words(whole, 1_000_000, 500), stdout=subprocess.PIPE, text=True
    )
    assert program.stdout is not None
    for _ in range(40):
        program.stdout.readline()
    program.kill()
    program.wait()
    program.stdout.close()
    length, most = os.path.getsize(whole + "-wal"), 0
    for at in range(writer.rounds):
        path = writer.path(f"cut{at}.db")
        shutil.copyfile(whole, path)
        shutil.copyfile(whole + "-wal", path + "-wal")
        place = length if at == 0 else writer.draw.randrange(length)
        os.truncate(path + "-wal", place)
        told = writer.run(path, 1, 10)
        expect(told.status == 0, f"cut at {place} of {length}: {told.fault}")
        turns = turns_in(path)
        expect(turns == list(range(1, told.held + 2)), f"cut at {place}: {turns}")
        most = max(most, told.held)
    expect(most >= 39, "the whole log has what was printed")
    return f"{writer.rounds} cuts of {length} bytes, up to {most} changes"


def full(writer: Writer) -> str:
    """Its files can't grow beyond some length, and later they can."""
    ends = set()
    for at in range(writer.rounds):
        path = writer.path(f"full{at}.db")
        most = writer.draw.randrange(1, 3_000_000)
        told = writer.run(path, 3000, 2000, most)
        ends.add(told.fault)
        if os.path.getsize(path) == 0 and not told.added:
            continue
        expect(told.status in (3, 5), f"status {told.status} at {most} bytes")
        again = writer.run(path, 1, 10)
        expect(again.status == 0, f"opened again after {most} bytes: {again.fault}")
        count = len(told.added)
        expect(again.held in (count, count + 1), f"{again.held} held where {count} were added")
        expect(turns_in(path) == list(range(1, again.held + 2)), "each turn once")
    return f"{writer.rounds} lengths, faults {', '.join(sorted(ends))}"


def locked(writer: Writer) -> str:
    """A file that another process has open is refused, and stays as it is."""
    path = writer.path("locked.db")
    with subprocess.Popen(
        writer.words(path, 1_000_000, 10), stdout=subprocess.PIPE, text=True
    ) as first:
        assert first.stdout is not None
        first.stdout.readline()
        first.stdout.readline()
        second = writer.run(path, 1, 10)
        first.kill()
        rest = first.stdout.read()
    expect((second.status, second.fault) == (3, "Busy"), f"{second}")
    expect(len(turns_in(path)) > rest.count("\n") - 1, "what the first added is there")
    return "Busy"


def refused(writer: Writer) -> str:
    """Files that are no store of changes are refused with a word, and stay as they are."""
    seen = []
    texts = {
        "CREATE TABLE other (a INTEGER) STRICT": "OtherTables",
        "INSERT INTO change VALUES (0, 1, x'00')": "BadRow",
        "INSERT INTO change VALUES (50, -1, x'00')": "BadRow",
        "INSERT INTO change VALUES (50, 3, x'00')": "Refused",
    }
    for at, (text, fault) in enumerate(texts.items()):
        path = writer.path(f"refused{at}.db")
        expect(writer.run(path, 5, 10).status == 0, "a store of five")
        asked(path, text)
        asked(path, "pragma wal_checkpoint(truncate)")
        with open(path, "rb") as file:
            before = file.read()
        told = writer.run(path, 1, 10)
        expect((told.status, told.fault) == (3, fault), f"{text}: {told}")
        with open(path, "rb") as file:
            expect(file.read() == before, f"{text}: the file is as it was")
        seen.append(told.fault)
    path = writer.path("text.db")
    with open(path, "w", encoding="ascii") as file:
        file.write("no database" * 1000)
    told = writer.run(path, 1, 10)
    expect((told.status, told.fault) == (3, "Damaged"), f"{told}")
    return ", ".join(seen + [told.fault])
