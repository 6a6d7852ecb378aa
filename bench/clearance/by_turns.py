"""Runs programs by turns, and prints the least time of each for each kind of pair, with its ratio
to the last."""

import argparse
import re
import subprocess
import sys

LINE = re.compile(
    r"(size \d+ mix \d|solids of m \d mix \d).*?near (\d+).*?( tenths of)? ns a pair (\d+)"
)
TURNS = 4


def main() -> int:
    words = argparse.ArgumentParser(description=__doc__)
    words.add_argument("programs", metavar="PROGRAM", nargs="+")
    programs = words.parse_args().programs
    best: dict[tuple[str, str], float] = {}
    near: dict[tuple[str, str], str] = {}
    for program in programs * TURNS:
        run = subprocess.run([program], capture_output=True, text=True, check=True)
        for line in run.stdout.splitlines():
            found = LINE.match(line)
            if found and "boxed false" not in line:
                key = (found[1], program)
                time = int(found[4]) / (10 if found[3] else 1)
                best[key] = min(best.get(key, time), time)
                near[key] = found[2]
    for kind in sorted({key[0] for key in best}):
        times = [best.get((kind, program)) for program in programs]
        last = [time for time in times if time is not None][-1]
        shown = "  ".join(
            "-" if time is None else f"{time:9.1f} ({last / time:.2f})" for time in times
        )
        print(f"{kind:24} {shown}  near {near.get((kind, programs[0]))}")
    return 0


if __name__ == "__main__":
    sys.exit(main())
