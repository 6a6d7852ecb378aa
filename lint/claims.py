"""Shows that the claims lead to clauses: python3 -m lint.claims. Each row of the tables of
docs/CLAIMS.md names a crate, and public functions, laws or types of it with the clauses meant in
brackets; each of these has to be in the crate's code. Exit status 1 if one isn't.
"""

import functools
import re
import sys
from collections.abc import Iterator
from dataclasses import dataclass

from lint.repository import files_below, text_of

PAGE = "docs/CLAIMS.md"
SPAN = re.compile(r"\(((?:`\w+`(?:, )?)+)\)|`([\w:]+)`")


@dataclass
class Row:
    """A row of a table: its line's number, the crate, and what the last column says."""

    line: int
    crate: str
    clauses: str


def rows() -> Iterator[Row]:
    """The rows of the tables that name a crate or go on with the one above."""
    crate = ""
    for number, line in enumerate(text_of(PAGE).split("\n"), 1):
        cells = [cell.strip() for cell in line.strip("|").split(" | ")]
        if not line.startswith("| ") or len(cells) != 3:
            crate = ""
            continue
        link = re.match(r"\[`(\w+)`\]\(crates/", cells[1])
        if link or (crate and cells[1] == "the same"):
            crate = link[1] if link else crate
            yield Row(number, crate, cells[2])


@dataclass
class Names:
    """The names that a crate's code and definitions declare, and those of its clauses."""

    declared: set[str]
    clauses: set[str]


@functools.cache
def names_of(crate: str) -> Names:
    """What is declared in a crate."""
    declared: set[str] = set()
    clauses: set[str] = set()
    for folder, ending in (("src", ".rt"), ("specs", ".antt")):
        for path in files_below(f"crates/{crate}/{folder}", ending):
            text = text_of(path)
            declared.update(re.findall(r"\b(?:fn|struct|enum|trait|type|record|ghost) (\w+)", text))
            declared.update(re.findall(r"^(?:pub |abbrev |unfoldable )*(\w+) :", text, re.M))
            clauses.update(re.findall(r"\bensures (\w+) ", text))
    return Names(declared, clauses)


def faults(row: Row) -> Iterator[str]:
    """The names of a row that aren't in the crate's code."""
    names = names_of(row.crate)
    for clauses, name in SPAN.findall(row.clauses):
        if name and name.split("::")[-1] not in names.declared:
            yield f"{PAGE}:{row.line}: {row.crate} has no {name}"
        for clause in re.findall(r"\w+", clauses):
            if clause not in names.clauses:
                yield f"{PAGE}:{row.line}: {row.crate} has no clause {clause}"


def main() -> int:
    found = list(rows())
    wrong = [what for row in found for what in faults(row)]
    for what in wrong:
        print(what)
    print(f"{len(found)} claims, {len(wrong)} faults")
    return 1 if wrong or not found else 0


if __name__ == "__main__":
    sys.exit(main())
