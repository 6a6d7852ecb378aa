"""How long the built program takes for the inputs that are slowest by their size: python3 -m
bench.slow_inputs PROGRAM [WORD ..], all or those with one of the words in their name. A line has
the size in megabytes, the seconds of a processor (the least of three runs where one takes less than
a second), megabytes in a second, the most memory, and what is answered. Uploads are read without
the work after them, and of clashes the work alone is measured.
"""

import os
import subprocess
import sys
import tempfile
from collections.abc import Callable

from bench.timing import of_children
from tests.failing.tool import Tool
from tests.hostile.heads import head_of
from tests.ifc.basics import file_of
from tests.ifc.crowds import (
    chain,
    mapped,
    parts,
    placed,
    plates,
    shared_shape,
    shared_storey,
    sharing,
    sheets,
    two_storeys,
)
from tests.ifc.polygons import comb, convex, polygons, strip
from tests.ifc.voids import faces_with_voids, listed_voids, rings, windows
from tests.shapes.files import clashes, many_rules, topic, upload
from tests.support.checks import arguments
from tests.support.programs import built

ALL_BUCKETS = 1_000_000
PIERCING = b'{"rules":[{"a":"*","b":"*","kind":"pierce"}]}'


def nested_lists(number: int) -> str:
    return f"#{number}=A({'(' * 31}{')' * 31});\n"


INPUTS: dict[str, Callable[[], bytes]] = {
    "one comb, listed 1,000 times": lambda: upload(polygons(comb(), 1, 1000)),
    "one winding strip, listed 1,000 times": lambda: upload(polygons(strip(), 1, 1000)),
    "one comb, listed 3,000 times": lambda: upload(polygons(comb(), 1, 3000)),
    "9 combs in each of 300 sets": lambda: upload(polygons(comb(), 9, sets=300)),
    "9 winding strips in each of 300 sets": lambda: upload(polygons(strip(), 9, sets=300)),
    "one convex face, listed by each of 100 sets": lambda: upload(
        polygons(convex(), 1, 1002, sets=100)
    ),
    "1,000 combs": lambda: upload(polygons(comb(), 1000)),
    "200 faces of 1,000 corners in 50 holes": lambda: upload(
        faces_with_voids(windows(800, 50, 4), 200)
    ),
    "200 faces of 1,000 corners in 300 holes": lambda: upload(
        faces_with_voids(windows(100, 300, 3), 200)
    ),
    "8,000 faces of 16 corners with a hole": lambda: upload(
        faces_with_voids(windows(8, 1, 8, 2000), 8000)
    ),
    "a face of 83 rings within one another": lambda: upload(listed_voids(rings(83), 1)),
    "a face of 83 rings within one another, listed 4 times": lambda: upload(
        listed_voids(rings(83), 4)
    ),
    "two faces of 83 rings, listed 100 times by turns": lambda: upload(
        listed_voids(rings(83), 100, 2)
    ),
    "one comb, shared by 1,000 pipes": lambda: upload(polygons(comb(), 1, 1, 1000)),
    "a set mapped 1,000,000 times": lambda: upload(mapped(1000000)),
    "1,000 sets over a list of 100,000 points": lambda: upload(sharing(1000, 100000)),
    "a zero of 100,000 digits, read 20,000 times": lambda: upload(
        mapped(20000, "0" * 100000 + ".")
    ),
    "a zero after a comment, read 20,000 times": lambda: upload(
        mapped(20000, "/*" + "*" * 100000 + "*/0.")
    ),
    "a chain of 300,000 placements": lambda: upload(chain(300000, 100)),
    "100,000 pipes at a chain of 100,000": lambda: upload(chain(100000, 100000)),
    "a part of a part, 150,000 deep": lambda: upload(parts(150000)),
    "lists in lists, 32 deep": lambda: upload(file_of(*map(nested_lists, range(10, 300000)))),
    "1,000,000 instances, numbers falling": lambda: upload(
        file_of(*(f"#{1000000 - n}=A();\n" for n in range(999990)))
    ),
    "1,300,000 numbers of 19 digits": lambda: upload(
        file_of("#9=A((" + ",".join(["1.234567890123456789E-5"] * 1300000) + "));\n")
    ),
    "a text of 30 MB of directives": lambda: upload(
        file_of("#9=A('" + "\\X2\\00C4\\X0\\" * 2500000 + "');\n")
    ),
    "JSON: 350,000 members": lambda: topic(
        b'{"title":"a"' + b"".join(b',"%07d":1' % n for n in range(349000)) + b"}"
    ),
    "JSON: lists 120 deep": lambda: topic(
        b'{"title":"a","x":[' + (b"[" * 120 + b"]" * 120 + b",") * 17400 + b"1]}"
    ),
    "JSON: objects 125 deep": lambda: topic(
        b'{"title":"a","x":[' + (b'{"":' * 125 + b"1" + b"}" * 125 + b",") * 6650 + b"1]}"
    ),
    "JSON: 2,000,000 numbers": lambda: topic(b'{"title":"a","x":[' + b"1," * 2000000 + b"1]}"),
    "JSON: a number of 4,000,000 digits": lambda: topic(
        b'{"title":"a","index":' + b"1" * 4000000 + b"}"
    ),
    "JSON: a text of escapes": lambda: topic(b'{"title":"a","x":"' + b"\\u0001" * 690000 + b'"}'),
    "heads of 16,384 bytes": lambda: head_of(16384) * 100,
    "a head of 16,384 bytes, a byte a read": lambda: head_of(16384) * 5,
    "8,000 walls that share a shape of 8,000 representations": lambda: upload(shared_shape(8000)),
    "200,000 walls in a storey whose name has 1 MB": lambda: upload(shared_storey(200000, 1000000)),
    "clashes of 1,415 pipes at one place": lambda: clashes(placed(1415, 100, 0)),
    "clashes of 2,830 pipes at one place": lambda: clashes(placed(2830, 100, 0)),
    "clashes of 1,415 pipes, by the last of 200 rules": lambda: clashes(
        placed(1415, 100, 0), many_rules(b'{"a":"*","b":"IFCPIPESEGMENTS","distance":0},')
    ),
    "clashes of 200 pipes in storeys of 100,000 bytes": lambda: clashes(
        two_storeys(200, 100000),
        many_rules(b'{"a":"*","b":"*","distance":0,"storey":"different"},'),
    ),
    "clashes of 50 sheets of 1,000 triangles": lambda: clashes(sheets(50)),
    "clashes of 100 sheets of 1,000 triangles": lambda: clashes(sheets(100)),
    "12 plates as wide as a model may be": lambda: upload(
        plates(*range(-798_000, 660_000, 132_000))
    ),
    "clashes of 100 such sheets, by a pierce rule": lambda: clashes(sheets(100), PIERCING),
}


def taken(
    program: str, data: bytes, buckets: int, env: dict[str, str] | None = None
) -> tuple[float, bytes]:
    """Seconds of a processor, and the output of a session."""
    words = [program, "replay", "--at", "1", "--buckets", str(buckets)]
    with tempfile.TemporaryFile() as given:
        given.write(data)
        given.seek(0)
        before = of_children()
        run = subprocess.run(words, stdin=given, stdout=subprocess.PIPE, env=env, check=True)
        return of_children() - before, run.stdout


PEAK = """
import resource, subprocess, sys
subprocess.run(sys.argv[1:], stdout=subprocess.DEVNULL)
print(resource.getrusage(resource.RUSAGE_CHILDREN).ru_maxrss)
"""


def peak(program: str, data: bytes, buckets: int) -> float:
    """The most memory of a session in megabytes, as a process between sees it."""
    words = [sys.executable, "-c", PEAK, program, "replay", "--at", "1", "--buckets", str(buckets)]
    return int(subprocess.run(words, input=data, stdout=subprocess.PIPE, check=True).stdout) / 1000


def measure(program: str, name: str, data: bytes, env: dict[str, str] | None) -> str:
    """A line of the table."""
    works = name.startswith("clashes")
    buckets = ALL_BUCKETS if works else 0
    seconds, output = taken(program, data, buckets, env)
    if seconds < 1:
        seconds = min(seconds, *(taken(program, data, buckets, env)[0] for _ in range(2)))
    if works:
        seconds -= taken(program, data, 0)[0]
    size, answer = len(data) / 1e6, output.splitlines()[-1][-60:].decode()
    speed = f"{size:6.2f} MB {seconds:8.3f} s {size / max(seconds, 1e-4):8.3f} MB/s"
    return f"{name:56} {speed} {peak(program, data, buckets):6.0f} MB  {answer}"


def main() -> int:
    parser = arguments(__doc__)
    parser.add_argument("words", metavar="WORD", nargs="*")
    given = parser.parse_args()
    program = built(given.program)
    asked = [
        name for name in INPUTS if not given.words or any(word in name for word in given.words)
    ]
    if not asked:
        sys.exit(f"no input has one of these words in its name: {' '.join(given.words)}")
    with tempfile.TemporaryDirectory() as folder:
        bytewise = dict(os.environ, **Tool(program, folder, 0, None).settings("read", most=1))
        for name in asked:
            print(
                measure(
                    program, name, INPUTS[name](), bytewise if "a byte a read" in name else None
                ),
                flush=True,
            )
    return 0


if __name__ == "__main__":
    sys.exit(main())
