"""Replays streams of odd bytes (tests/odd_streams), and prints those that are answered otherwise
than the reference says.

    python3 -m tests.odd_streams PROGRAM [--seed N] [--count N] [--keep FOLDER]

With --keep the bytes of each stream that differs are written into the folder.
"""

import concurrent.futures
import os
import subprocess
import sys
from collections import Counter
from random import Random

from tests import odd_streams
from tests.support.checks import arguments, with_seed
from tests.support.http import MOMENT
from tests.support.programs import built

Outcome = tuple[bytes, int]


def replayed(program: str, data: bytes) -> Outcome:
    words = [program, "replay", "--at", str(MOMENT)]
    run = subprocess.run(words, input=data, stdout=subprocess.PIPE, timeout=60, check=False)
    return run.stdout, run.returncode


def difference(data: bytes, got: Outcome, right: Outcome) -> str:
    """What of a stream is answered otherwise."""
    at = len(os.path.commonprefix([got[0], right[0]]))
    text = f"{data[:300]!r}: status {got[1]}, from byte {at} {got[0][at:at + 80]!r}"
    return f"{text}; wanted {right[1]}, {right[0][at:at + 80]!r}"


def main() -> int:
    parser = arguments(__doc__)
    with_seed(parser)
    parser.add_argument("--count", type=int, default=2000, help="how many streams")
    parser.add_argument("--keep", metavar="FOLDER", help="where those that differ are written to")
    given = parser.parse_args()
    program = built(given.program)
    print(f"seed {given.seed}", flush=True)

    def one(number: int) -> tuple[bytes, Outcome | None, Outcome]:
        data = odd_streams.stream(Random(f"{given.seed} {number}"))
        return data, odd_streams.wanted(data), replayed(program, data)

    ends: Counter[str] = Counter()
    with concurrent.futures.ThreadPoolExecutor(3) as workers:
        for number, (data, right, got) in enumerate(workers.map(one, range(given.count))):
            end = "ask for more" if right is None else "agree" if right == got else "differ"
            ends[end] += 1
            if right is None or right == got:
                continue
            print(f"{number}: {difference(data, got, right)}")
            if given.keep:
                os.makedirs(given.keep, exist_ok=True)
                with open(os.path.join(given.keep, f"{given.seed}_{number}"), "wb") as file:
                    file.write(data)
    print(", ".join(f"{ends[end]} {end}" for end in ("agree", "differ", "ask for more")))
    return 1 if ends["differ"] or not ends["agree"] else 0


if __name__ == "__main__":
    sys.exit(main())
