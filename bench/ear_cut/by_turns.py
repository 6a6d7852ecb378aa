"""Runs programs by turns, and prints the least time of each for each polygon, with its ratio to the
last program's."""

import argparse
import subprocess
import sys

TURNS = 5
Polygon = tuple[str, int]


def main() -> int:
    words = argparse.ArgumentParser(description=__doc__)
    words.add_argument("programs", metavar="PROGRAM", nargs="+")
    programs = words.parse_args().programs
    best: dict[tuple[Polygon, str], float] = {}
    folded: dict[Polygon, set[str]] = {}
    for program in programs * TURNS:
        run = subprocess.run([program], capture_output=True, text=True, check=True)
        for line in run.stdout.splitlines():
            kind, corners, time, sum_of_places = line.split()
            key = (kind, int(corners))
            best[key, program] = min(best.get((key, program), float("inf")), int(time) / 1000)
            folded.setdefault(key, set()).add(sum_of_places)
    for key in sorted({key for key, _ in best}):
        times = [best[key, program] for program in programs]
        shown = "  ".join(f"{time:12.3f} ({times[-1] / time:.2f})" for time in times)
        lists = "same" if len(folded[key]) == 1 else "DIFFERENT"
        print(f"{key[0]:8} {key[1]:5} {shown}  {lists} lists")
    return 0 if all(len(sums) == 1 for sums in folded.values()) else 1


if __name__ == "__main__":
    sys.exit(main())
