"""Lists the definitions of specs, each with the line that says it in words:

    python3 -m lint.definitions [--name NAME] [CRATE ..]

Reads crates/*/specs/**/*.antt, of all crates or of those that are named. With --name it lists only
definitions of that name. Exit status 1 if a crate isn't there or nothing is found.
"""

import argparse
import re
import signal
import sys
from collections.abc import Iterator
from pathlib import Path

TOP = Path(__file__).resolve().parent.parent
HEAD = re.compile(
    r"(?:pub |abbrev |unfoldable |opaque )*"
    r"(?:(?:record|data) ([\w◌'-]+)|([\w◌'-]+)(?: \{.*\})? :)"
)


def words_above(lines: list[str], at: int) -> str:
    """The comment that stands right above a line, as one text."""
    first = at
    while first > 0 and lines[first - 1].startswith("--"):
        first -= 1
    return " ".join(line.lstrip("-").strip() for line in lines[first:at])


def definitions(path: Path) -> Iterator[tuple[int, str, str]]:
    """Each definition of a file: its line's number, its name and what it says in words."""
    lines = path.read_text(encoding="utf-8").split("\n")
    for at, line in enumerate(lines):
        head = HEAD.match(line)
        if head and not line.startswith(("use ", "module ", "--")):
            yield at + 1, head[1] or head[2], words_above(lines, at)


def main() -> int:
    """Prints the definitions, file by file."""
    signal.signal(signal.SIGPIPE, signal.SIG_DFL)  # `| head` ends it quietly
    parser = argparse.ArgumentParser(
        description="Lists definitions with the line that says each in words."
    )
    parser.add_argument("crates", nargs="*", metavar="CRATE")
    parser.add_argument("--name", help="only definitions of this name")
    asked = parser.parse_args()
    folders = [TOP / "crates" / name for name in asked.crates] or sorted((TOP / "crates").iterdir())
    for folder in folders:
        if not folder.is_dir():
            print(f"crates/{folder.name} isn't there", file=sys.stderr)
            return 1
    found = 0
    for folder in folders:
        for path in sorted(folder.glob("specs/**/*.antt")):
            for line, name, words in definitions(path):
                if asked.name in (None, name):
                    found += 1
                    print(f"{path.relative_to(TOP)}:{line}: {name}: {words}")
    print(f"{found} definitions", file=sys.stderr)
    return 0 if found else 1


if __name__ == "__main__":
    sys.exit(main())
