"""Lists, crate by crate, the modules whose first line is no `//!` and the public items without a
`///`: python3 -m lint.docstrings [CRATE ..]. Reads src/*.rt; in tests only the first line of the
file is asked for. An item is a function, a type, a trait with its calls, or a constant; one that is
public within its crate alone (`pub(crate)`) isn't asked for. Exit status 1 if there is any.
"""

import argparse
import os
import re
import sys
from collections.abc import Iterator

from lint.repository import crates_of, files_in, text_of

ITEM = re.compile(r"\s*pub (?:const )?(fn|struct|enum|trait|const|static|type) (\w+)")
CALL = re.compile(r"    (fn) (\w+)")


def has_docstring(lines: list[str], at: int) -> bool:
    """Whether a `///` is above the item of a line, and above its attributes."""
    above = at - 1
    while above >= 0 and re.match(r"\s*#\[", lines[above]):
        above -= 1
    return above >= 0 and lines[above].strip().startswith("///")


def lacking(path: str) -> Iterator[tuple[int, str]]:
    """What lacks its line in a file: its first line, and then its items, each by the number of its
    line."""
    lines = text_of(path).split("\n")
    if not lines[0].startswith("//!"):
        yield 1, "the module"
    if "test" in os.path.basename(path):
        return
    in_trait = False
    for at, line in enumerate(lines):
        in_trait = line.startswith("pub trait") or in_trait and line != "}"
        item = ITEM.match(line) or (CALL.match(line) if in_trait else None)
        if item and not has_docstring(lines, at):
            yield at + 1, f"{item[1]} {item[2]}"


def main() -> int:
    parser = argparse.ArgumentParser(
        description=__doc__, formatter_class=argparse.RawDescriptionHelpFormatter
    )
    parser.add_argument("crates", metavar="CRATE", nargs="*", help="all, if none is named")
    files = items = modules = 0
    for crate in crates_of(parser.parse_args().crates):
        for name in files_in(f"crates/{crate}/src", ".rt"):
            files += 1
            for at, what in lacking(f"crates/{crate}/src/{name}"):
                modules += what == "the module"
                items += what != "the module"
                print(f"{crate}/src/{name}:{at}: {what}")
    print(f"{modules} modules, {items} items")
    return 1 if modules + items or not files else 0


if __name__ == "__main__":
    sys.exit(main())
