"""Versions with many members of a bucket, pairs, buckets and memberships."""

import subprocess
import tempfile

from tests.ifc.basics import small_pipes
from tests.ifc.crowds import placed
from tests.support.checks import expect
from tests.support.http import rules
from tests.within.asking import COORD, Asking


def crowded(program: str) -> str:
    """1,500 pipes in one bucket, any two of which clash: more than a million pairs, the first and
    the last of which are listed."""
    count = 1500
    pairs = count * (count - 1) // 2
    with Asking(program) as it:
        it.set_rules()
        it.upload(placed(count, 100, 0), count)
        pages = [
            it.clashes(2, page) for page in ("?count=1000", f"?first={pairs - 1000}&count=1000")
        ]
    for page in pages:
        shown = len(page["clashes"])
        expect((page["total"], shown) == (pairs, 1000), f"{page['total']} pairs, {shown} are shown")
    ends = pages[0]["clashes"][0], pages[1]["clashes"][-1]
    names = [[end[side]["guid"] for side in ("a", "b")] for end in ends]
    wanted = [[f"{n:022}" for n in pair] for pair in ((0, 1), (count - 2, count - 1))]
    expect(names == wanted, f"{names}")
    return f"{pairs} pairs"


def carried(program: str) -> str:
    """Long pipes by twos, each two in buckets of their own, more than 50,000 in all: once they are
    checked, a next version carries all but those near what is new."""
    count = 6600
    with Asking(program) as it:
        it.set_rules()
        made = it.upload(placed(count, 8000, 15000, 40, 2), count)
        expect(made["left"] > 50_000, f"{made['left']} buckets")
        found = it.clashes(2, "?count=1")
        expect(found["total"] == count // 2, f"{found['total']} pairs")
        more = small_pipes((10, "m" * 22, "p", (790_000, 0, 0)))
        again = it.ask("PUT", f"{COORD}/models/other", more, 201)
        expect(again["left"] == 0, f"{again['left']} buckets aren't carried")
        expect(it.clashes(3, "?count=1")["total"] == count // 2, "other pairs are carried")
    return f"{made['left']} buckets"


def memberships(program: str) -> str:
    """60,000 elements in more than a million cells, and 100,000 in none that another is in."""
    with Asking(program) as it:
        it.upload(placed(60_000, 8600, 3170), 60_000)
        it.upload(placed(100_000, 100, 15000), 100_000)
        it.listed(2, 100_000)
    return "60,000 wide ones, 100,000 small ones"


def version_full(program: str) -> str:
    """`check` takes 100,000 elements, as many as a version may have."""
    with tempfile.TemporaryDirectory() as folder:
        for name, data in {"r": rules(0), "a": placed(100_000, 100, 15000)}.items():
            with open(f"{folder}/{name}", "wb") as file:
                file.write(data)
        command = [program, *"check --rules r a=a".split()]
        run = subprocess.run(command, cwd=folder, stdout=subprocess.PIPE, check=False)
    expect((run.stdout, run.returncode) == (b"clashes 0\n", 0), f"{run.stdout!r}")
    return "100,000 elements"


def sixteen(program: str) -> str:
    """The newest 16 versions are there, and the one before them isn't any more."""
    with Asking(program) as it:
        for n in range(17):
            it.set_rules(n)
        for version in (2, 17):
            it.listed(version, 0)
        gone = it.ask("GET", f"{COORD}/versions/1", None, 410)
        expect(gone["code"] == "K4", f"{gone}")
    return "16 of 17 versions"


CLASHES = [crowded, carried, memberships, version_full, sixteen]
