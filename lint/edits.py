"""Shows that each must-fail edit can be made: python3 -m lint.edits [CRATE ..]. The text after
`old:` has to be exactly once in the file that the edit names, since code that changes under an edit
leaves it without a place. Prints each edit that can't be made, and the number of all. Exit status 1
if there is one that can't. Whether the check refuses an edit is for the gate (`rt ci`) to say.
"""

import argparse
import os
import sys
from collections.abc import Iterator

from lint.repository import TOP, crates_of, files_in, text_of


def changes(lines: list[str]) -> Iterator[tuple[str, str]]:
    """The file and the old text of each change that an edit makes."""
    file = ""
    old: list[str] = []
    for line in lines:
        word, _, text = line.partition(":")
        if word == "file":
            file = text.strip()
        elif word == "old":
            old.append(text.removeprefix(" "))
        elif word == "new" and old:
            yield file, "\n".join(old)
            old = []


def complaints(crate: str, edit: str) -> Iterator[str]:
    """Why an edit can't be made."""
    made = list(changes(text_of(f"crates/{crate}/must-fail/{edit}").split("\n")))
    if not made:
        yield "changes nothing"
    for name, old in made:
        path = f"crates/{crate}/{name}"
        if not os.path.isfile(os.path.join(TOP, path)):
            yield f"names {name}, which isn't there"
            continue
        times = text_of(path).count(old)
        if times != 1:
            yield f"its old text is {times} times in {name}"


def main() -> int:
    parser = argparse.ArgumentParser(
        description=__doc__, formatter_class=argparse.RawDescriptionHelpFormatter
    )
    parser.add_argument("crates", metavar="CRATE", nargs="*", help="all, if none is named")
    edits, bad = 0, 0
    for crate in crates_of(parser.parse_args().crates):
        for edit in files_in(f"crates/{crate}/must-fail", ""):
            edits += 1
            for complaint in complaints(crate, edit):
                bad += 1
                print(f"{crate} {edit}: {complaint}")
    print(f"{edits} edits, {bad} that can't be made")
    return 1 if bad else 0


if __name__ == "__main__":
    sys.exit(main())
