"""Times uploads of generated files: python3 -m bench.uploads PROGRAM [--plain PLAIN] [FILE ..], the
least of five runs each, where PLAIN is another reader of IFC files that is called with a file and a
distance (its whole run is timed). Prints MB a second from bytes to version, for 1,000 to 50,000
boxes without placements, for 8,000 and 45,000 in chains of placements, for polygonal faces in the
shape of combs of 1,000 corners, and for each FILE.
"""

import os
import sys
import tempfile

from bench.timing import least, replay_words, request
from tests.ifc.polygons import combs
from tests.ifc.solids import boxes
from tests.support.checks import arguments
from tests.support.http import coord_of
from tests.support.programs import built

RUNS = 5
BOXES = [
    (1000, 0),
    (8000, 0),
    (20000, 0),
    (50000, 0),
    (8000, 1),
    (8000, 10),
    (8000, 1000),
    (8000, 8000),
    (45000, 10),
]


class Uploads:
    """The program, the plain one, and the time of a session of nothing."""

    def __init__(self, program: str, plain: str | None) -> None:
        self.words, self.plain = replay_words(program, "--buckets", "0"), plain
        self.start, _ = least(self.words, b"", RUNS)

    def timed(self, file: bytes, name: str, wanted: bytes, beside: bool = True) -> None:
        """Uploads a file, and prints how long that took, beside the plain program where it reads
        such a file."""
        took, output = least(self.words, request("PUT", f"{coord_of()}/models/m", file), RUNS)
        if wanted not in output[-100:]:
            sys.exit(f"{name}: {output[-200:]!r}")
        size, took = len(file) / 1e6, took - self.start
        line = f"{name}: {size:.1f} MB, {1000 * took:.0f} ms, {size / took:.1f} MB/s"
        if self.plain and beside:
            with tempfile.NamedTemporaryFile(suffix=".ifc") as kept:
                kept.write(file)
                kept.flush()
                other, _ = least([os.path.abspath(self.plain), kept.name, "0"], b"", 3)
            line += f"; the plain program, its whole run: {1000 * other:.0f} ms"
        print(line, flush=True)


def main() -> int:
    parser = arguments(__doc__)
    parser.add_argument("--plain", metavar="PLAIN")
    parser.add_argument("files", metavar="FILE", nargs="*")
    given = parser.parse_intermixed_args()
    uploads = Uploads(built(given.program), given.plain)
    for count, depth in BOXES:
        wanted, name = b'{"elements":%d,"left":' % count, f"{count} boxes, chains of {depth}"
        uploads.timed(boxes(count, depth), name, wanted, beside=depth == 0)
    uploads.timed(
        combs(200, 1000), "200 combs of 1,000 corners", b'{"elements":200,"left":', beside=False
    )
    for name in given.files:
        with open(name, "rb") as file:
            uploads.timed(file.read(), os.path.basename(name), b'"elements":')
    return 0


if __name__ == "__main__":
    sys.exit(main())
