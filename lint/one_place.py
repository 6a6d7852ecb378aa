"""Shows that each definition is in one place: python3 -m lint.one_place. Reads specs/*.antt of each
crate, and prints each pair of definitions in two crates that are the same word for word, where only
the name may differ. Types and constants of the program count as what they are: two of one name in
two crates are two. Exit status 1 if there is a pair.
"""

import collections
import itertools
import os
import re
import sys
from collections.abc import Iterator

from lint.repository import all_crates, files_below, text_of

HEAD = re.compile(r"^(?:(?:abbrev|unfoldable|opaque|pub)\s+)*(?:(?:record|data)\s+)?([^\s(:{]+)")
WORDS = re.compile(r"[\w◌'.-]+|[^\s\w]")
DECLARED = re.compile(r"^use (Rattle\.\w+\.specs\.declared\.[\w.]+)\.\{([^}]*)\}", re.M)
OTHERS = ("use ", "open ", "mod ", "pub mod ", "pub use ", "ruleset ", "pub ruleset ", "unfolding ")
MARKS = ("abbrev", "unfoldable", "opaque", "pub")


def is_head(line: str) -> bool:
    return re.match(r"(?:abbrev|unfoldable|opaque|pub|record|data)\s", line) is not None


def name_in(line: str) -> str | None:
    """The name that a line begins to define, or goes on to."""
    found = HEAD.match(line)
    return found[1] if found else None


def definitions(path: str) -> Iterator[tuple[str, list[str]]]:
    """The definitions of a file: their names, and their text without comments."""
    name: str | None = None
    lines: list[str] = []
    for raw in text_of(path).split("\n"):
        line = raw.split("--")[0].rstrip()
        if not line or line.startswith(OTHERS):
            continue
        if name and (line[0] in " )]}" or (not is_head(line) and name_in(line) == name)):
            lines.append(line)
            continue
        if name:
            yield name, lines
        name, lines = name_in(line), [line]
    if name:
        yield name, lines


def declared(path: str) -> dict[str, str]:
    """The types and constants of the program that a file imports, with where they are."""
    found = {}
    for module, names in DECLARED.findall(text_of(path)):
        for name in names.split(","):
            words = name.split()
            found[words[-1]] = f"{module}.{words[0]}"
    return found


def normal(name: str, lines: list[str], known: dict[str, str]) -> tuple[str, ...]:
    """The text without the definition's own name, its marks and its layout."""
    words = (word for line in lines for word in WORDS.findall(line))
    return tuple(
        "·" if word == name else known.get(word, word) for word in words if word not in MARKS
    )


def main() -> int:
    places = collections.defaultdict(list)
    for crate in all_crates():
        for path in files_below(f"crates/{crate}/specs", ".antt"):
            file = os.path.basename(path)
            known = declared(path)
            for name, lines in definitions(path):
                places[normal(name, lines, known)].append((crate, file, name))
    pairs = 0
    for found in places.values():
        for one, other in itertools.combinations(found, 2):
            if one[0] != other[0]:
                pairs += 1
                print("%s/specs/%s %s = %s/specs/%s %s" % (one + other))
    print(f"{sum(map(len, places.values()))} definitions, {pairs} pairs")
    return 1 if pairs or not places else 0


if __name__ == "__main__":
    sys.exit(main())
