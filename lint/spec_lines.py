"""Shows what of specs can't be read at a glance: python3 -m lint.spec_lines. Prints each line of a
definition or a clause beyond 110 columns, and each definition in specs/*.antt without a line of its
own before it that says what is meant. Exit status 1 if there is any.
"""

import re
import sys
from collections.abc import Iterator

from lint.repository import all_crates, files_below, text_of

MOST = 110
HEAD = re.compile(
    r"(?:pub |abbrev |unfoldable |opaque )*(?:(?:record|data) ([\w◌'-]+)|([\w◌'-]+)(?: \{.*\})? :)"
)
CLAUSE = re.compile(r"[→≡×⊎λ≤∷]")
TEXT = re.compile(r"\s*(--|//|(pub )?(ghost )?use )")


def long_lines(path: str, is_spec: bool) -> Iterator[str]:
    """The lines of definitions and clauses that are too long."""
    for number, line in enumerate(text_of(path).split("\n"), 1):
        if len(line) > MOST and (is_spec or CLAUSE.search(line)) and not TEXT.match(line):
            yield f"{path}:{number}: {len(line)} columns"


def unsaid(path: str) -> Iterator[str]:
    """The definitions without a line that says what is meant."""
    lines = text_of(path).split("\n")
    for number, line in enumerate(lines):
        head = HEAD.match(line)
        if (
            head
            and not line.startswith(("use ", "module ", "--"))
            and not lines[number - 1].startswith("--")
        ):
            yield f"{path}:{number + 1}: {head[1] or head[2]} has no line"


def main() -> int:
    crates = all_crates()
    specs = [path for crate in crates for path in files_below(f"crates/{crate}/specs", ".antt")]
    sources = [path for crate in crates for path in files_below(f"crates/{crate}/src", ".rt")]
    found = [text for path in specs for text in (*long_lines(path, True), *unsaid(path))]
    found += [text for path in sources for text in long_lines(path, False)]
    for text in found:
        print(text)
    print(f"{len(specs)} files, {len(found)} places")
    return 1 if found or not specs else 0


if __name__ == "__main__":
    sys.exit(main())
