"""Wraps the paragraphs and the items of lists of pages at 100 columns: python3 -m lint.wrap PAGE ..

Tables, headings, code and pictures stay as they are, and a code span isn't broken. With --check
nothing is written: pages that it would change are named, and the exit status is 1 if there is one.
"""

import argparse
import re
import sys
import textwrap
from dataclasses import dataclass, field
from pathlib import Path

WIDTH = 100
HELD = "\0"  # in place of a blank within a code span


@dataclass
class Part:
    """The lines of a paragraph or an item that is being read, and how its lines begin."""

    first: str = ""
    rest: str = ""
    lines: list[str] = field(default_factory=list)

    def wrapped(self) -> list[str]:
        """The part in lines of 100 columns."""
        text = re.sub(r"`[^`]*`", lambda span: span[0].replace(" ", HELD), " ".join(self.lines))
        lines = textwrap.wrap(
            text,
            WIDTH,
            initial_indent=self.first,
            subsequent_indent=self.rest,
            break_long_words=False,
            break_on_hyphens=False,
        )
        return [line.replace(HELD, " ") for line in lines]


def begun(line: str, inside: bool) -> Part | None:
    """The item that begins at a line, if one does. Deep ones do only inside a list."""
    item = re.match(r"( *)(- |\d+\. )(.*)$", line)
    if not item or (len(item[1]) >= 4 and not inside):
        return None
    first = item[1] + item[2]
    return Part(first, " " * len(first), [item[3].strip()])


def stays(line: str, part: Part) -> bool:
    """Whether a line is left as it is: a heading, a table, a picture, or code."""
    is_code = line.startswith("    ") and not part.lines
    return is_code or bool(re.match(r"#|\s*\||<|!\[", line))


def wrapped(text: str) -> str:
    """A page with its paragraphs and items wrapped."""
    out: list[str] = []
    part, inside, fenced = Part(), False, False
    for line in text.split("\n"):
        is_fence = line.startswith("```")
        fenced = fenced != is_fence
        item = None if fenced or is_fence else begun(line, inside)
        if item or fenced or is_fence or not line.strip() or stays(line, part):
            out += part.wrapped()
            part = item or Part()
            inside = inside or item is not None
            out += [] if item else [line]
        elif part.lines:
            part.lines.append(line.strip())
        else:
            indent = line[: len(line) - len(line.lstrip())]
            inside = inside and bool(indent)
            part = Part(indent, indent, [line.strip()])
    return "\n".join(out + part.wrapped()).rstrip("\n") + "\n"


def main() -> int:
    """Wraps the pages, or names those that aren't wrapped."""
    parser = argparse.ArgumentParser(description="Wraps pages at 100 columns.")
    parser.add_argument("pages", nargs="+", type=Path, metavar="PAGE")
    parser.add_argument("--check", action="store_true", help="names what isn't wrapped")
    asked = parser.parse_args()
    found = 0
    for page in asked.pages:
        text = page.read_text(encoding="utf-8")
        if wrapped(text) != text:
            found += 1
            print(f"{page} {'needs wrapping' if asked.check else 'is wrapped now'}")
            if not asked.check:
                page.write_text(wrapped(text), encoding="utf-8")
    return 1 if found and asked.check else 0


if __name__ == "__main__":
    sys.exit(main())
