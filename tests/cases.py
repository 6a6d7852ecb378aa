"""Runs the end-to-end cases over the built program:

    python3 -m tests.cases PROGRAM                     all of them
    python3 -m tests.cases PROGRAM upload/u07 clients  those of all groups of these names
    python3 -m tests.cases PROGRAM cases/upload/u07    those of this folder
    python3 -m tests.cases PROGRAM polygon             those with the word in their path

cases/README.md says how a case is laid out. It passes where the program ends with exactly its
status and has written exactly its output. As many run at once as there are processors, eight at
most. For each that fails, the first place where it differs is printed; then the count by group, and
last 'N passed, M failed'. The status is 1 where one failed, and where a word fits none.
"""

import collections
import concurrent.futures
import datetime
import os
import re
import signal
import subprocess
import sys

from tests.case_files import HERE, Failure, all_cases, check_layout, chosen, input_of, read
from tests.differences import difference, shown
from tests.support.checks import arguments
from tests.support.programs import built

SECONDS = 600
DATE = re.compile(rb"\d{4}-\d\d-\d\dT\d\d:\d\d:\d\dZ")


def now() -> bytes:
    """The moment as the program writes it."""
    return datetime.datetime.now(datetime.timezone.utc).strftime("%Y-%m-%dT%H:%M:%SZ").encode()


def at_the_clock(output: bytes, folder: str, before: bytes) -> bytes:
    """The output with the case's date for each date of the system's clock, which lie between the
    moments before and after."""
    moments = [before, *DATE.findall(output), now()]
    if moments != sorted(moments):
        text = b" ".join(moments).decode()
        raise Failure("dates that the clock did not give, or in another order: " + text)
    return DATE.sub(read(folder, "clock").strip(), output)


def run(program: str, folder: str) -> "subprocess.CompletedProcess[bytes]":
    """What became of the run, its output with the dates of the clock replaced."""
    files, before = os.path.join(folder, "files"), now()
    words = [program, *read(folder, "args").decode().splitlines()]
    place = files if os.path.isdir(files) else folder
    try:
        ran = subprocess.run(
            words,
            input=input_of(folder),
            capture_output=True,
            timeout=SECONDS,
            cwd=place,
            check=False,
        )
    except subprocess.TimeoutExpired:
        raise Failure(f"no end within {SECONDS} seconds") from None
    if os.path.exists(os.path.join(folder, "clock")):
        ran.stdout = at_the_clock(ran.stdout, folder, before)
    return ran


def failure_of(program: str, path: str) -> list[str]:
    """The lines that say why the case fails, or none."""
    folder = os.path.join(HERE, path)
    try:
        check_layout(folder)
        status, wanted = int(read(folder, "status")), read(folder, "stdout")
        ran = run(program, folder)
    except (Failure, OSError, ValueError) as why:
        return [str(why)]
    lines = []
    if ran.returncode != status:
        code = ran.returncode
        ended = f"status {code}" if code >= 0 else signal.Signals(-code).name
        lines.append(f"ended with {ended}, wanted status {status}")
    if ran.stdout != wanted:
        lines += difference(ran.stdout, wanted)
    if lines and ran.stderr:
        lines.append("standard error: " + shown(ran.stderr[-200:]))
    return lines


def main() -> int:
    words = arguments(__doc__)
    words.add_argument("words", metavar="GROUP or WORD", nargs="*")
    given = words.parse_args()
    program, paths = built(given.program), chosen(all_cases(), given.words)
    passed: collections.Counter[str] = collections.Counter()
    failed: collections.Counter[str] = collections.Counter()
    with concurrent.futures.ThreadPoolExecutor(min(os.cpu_count() or 1, 8)) as pool:
        for path, lines in zip(paths, pool.map(lambda it: failure_of(program, it), paths)):
            (failed if lines else passed)[os.path.dirname(path)] += 1
            if lines:
                print(f"case {path}: " + "\n    ".join(lines), flush=True)
    for group in sorted(passed.keys() | failed.keys()):
        print(f"{passed[group]:5} passed {failed[group]:4} failed  {group or '(no group)'}")
    print(f"{sum(passed.values())} passed, {sum(failed.values())} failed")
    return 1 if failed or not paths else 0


if __name__ == "__main__":
    sys.exit(main())
