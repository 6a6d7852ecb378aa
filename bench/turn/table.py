"""Runs the two programs of turn.sh by turns, and prints medians of several runs as tables."""

import argparse
import resource
import statistics
import subprocess
import sys
import time

RUNS = 11
Row = tuple[float, float]


def spent() -> float:
    used = resource.getrusage(resource.RUSAGE_CHILDREN)
    return used.ru_utime + used.ru_stime


def run(program: str, threads: int, calls: int, work: int) -> Row:
    """The seconds that the calls took, and how many processors the program kept busy."""
    before, start = spent(), time.monotonic()
    command = [program, str(threads), str(calls), str(work)]
    out = subprocess.run(command, check=True, capture_output=True, text=True).stdout
    return int(out) / 1e9, (spent() - before) / (time.monotonic() - start)


def medians(rows: list[Row]) -> Row:
    return statistics.median(row[0] for row in rows), statistics.median(row[1] for row in rows)


def table(turn: str, mutex: str, name: str, calls: int, work: int) -> None:
    """Prints a table of 1 to 8 threads."""
    print(f"{name}, {calls} by each thread")
    print(
        "threads  turn: calls/s  mutex: calls/s  turn's time / mutex's  "
        "busy processors: turn  mutex"
    )
    for threads in (1, 2, 4, 8):
        rows = [
            (run(turn, threads, calls, work), run(mutex, threads, calls, work)) for _ in range(RUNS)
        ]
        (t, busy), (m, others) = medians([a for a, _ in rows]), medians([b for _, b in rows])
        total = threads * calls
        speeds = f"{total / t:13.0f}  {total / m:14.0f}  {t / m:21.2f}"
        print(f"{threads:7}  {speeds}  {busy:21.1f}  {others:5.1f}")
    print()


def main() -> int:
    words = argparse.ArgumentParser(description=__doc__)
    words.add_argument("turn")
    words.add_argument("mutex")
    words.add_argument("calls", type=int)
    given = words.parse_args()
    table(given.turn, given.mutex, "short calls", given.calls, 0)
    table(given.turn, given.mutex, "short calls", 50 * given.calls, 0)
    table(given.turn, given.mutex, "calls of 20,000 steps of work", given.calls, 20000)
    return 0


if __name__ == "__main__":
    sys.exit(main())
