"""Lists, crate by crate, the names of specs/ and proofs/ that nothing in the repository cites.

    python3 -m lint.dead_names [CRATE ..]

It reads text only. A name is cited where it is outside its own definition: in its file, or in a
file that imports it from its module, or after its module's path. What only dead names cite is dead
too. Answers to goals, invariants and measures are cited by the check, and fields and constructors
belong to their types, and examples that compute by refl are there for themselves, so they don't
count. Exit status 1 if there is any.
"""

import argparse
import os
import re
import sys
from collections.abc import Iterator
from dataclasses import dataclass
from typing import NamedTuple

from lint.repository import crates_of, files_below, text_of

WORD = re.compile(r"[^\s(){}\[\],;.\"|]+")
HEAD = re.compile(
    r"^( *)((?:(?:pub|abbrev|unfoldable) )*)(record |data |ruleset )?"
    r"([^\s(){}\[\],;.]+)(?= .*?[:=]| :)"
)
IMPORT = re.compile(
    r"^(?:\s*)((?:pub |ghost )?use) (Rattle\.[\w.+-]+?)(?:\.\{([^}]*)\})?(?: as ([\w'-]+))?;?\s*$",
    re.M,
)
NOT_NAMES = {
    "use",
    "mod",
    "module",
    "open",
    "mutual",
    "where",
    "let",
    "in",
    "elim",
    "unfolding",
    "axiom",
    "|",
    "--",
    "λ",
    "infix",
    "infixl",
    "infixr",
}
CITED_BY_CHECK = re.compile(r"(^|[\s(])goal\.|^(invariant|decreases)-")
BY_HAND = re.compile(r"/(Proof\.antt \S+_spec|TheSendSync/Send\.antt send)$")
PATH = re.compile(r"(?:crate|\w+)::((?:specs|proofs)::[\w:'+-]+)")


class Import(NamedTuple):
    """What a file imports: whether it passes it on, from which module, which names (all, if none),
    under which word."""

    passed_on: bool
    module: str
    names: str
    alias: str


@dataclass(eq=False)
class Name:
    """A definition: the file and the lines that it takes, from the first to before the last."""

    text: "Text"
    word: str
    public: bool
    first: int
    last: int
    dead: bool = False


def indent_of(line: str) -> int:
    return len(line) - len(line.lstrip())


class Text:
    """A file: its lines, what it imports, and the names that it defines."""

    def __init__(self, path: str) -> None:
        self.path = path
        source = text_of(path)
        self.imports = [
            Import(m[0].startswith("pub"), m[1], m[2], m[3]) for m in IMPORT.findall(source)
        ]
        plain = IMPORT.sub(lambda m: "\n" * m.group(0).count("\n"), source)
        self.lines = [re.sub(r"(^|\s)--\s.*$", "", line) for line in plain.split("\n")]
        self.places: dict[str, list[int]] = {}  # of each word, its lines
        for at, line in enumerate(self.lines):
            for word in set(WORD.findall(line)):
                self.places.setdefault(word, []).append(at)
        parts = path.removeprefix("crates/").removesuffix(".antt").split(os.sep)
        self.crate = parts[0]
        self.module = "Rattle." + ".".join(parts) if path.endswith(".antt") else None
        # of one function: what is farther in are fields of answers
        self.is_answer = parts[1] == "proofs" and len(parts) > 3
        self.names = self.find_names() if self.module else []

    def find_names(self) -> list[Name]:
        """The names of the file, but for the fields and constructors within a type."""
        found: list[Name] = []
        inner: int | None = None
        for at, line in enumerate(self.lines):
            if inner is not None:
                if not line.strip() or indent_of(line) > inner:
                    continue
                inner = None
            match = HEAD.match(line)
            if not match or match.group(4) in NOT_NAMES:
                continue
            kind, rest = match.group(3), line[match.end() :]
            if kind is None and not re.match(r"( \{ℓ[^}]*\})* :(\s|$)", rest):
                continue
            indent, word = len(match.group(1)), match.group(4)
            if kind in ("record ", "data "):
                inner = indent
            if not self.is_cited_by_check(rest, word, indent) and not (
                kind is None and self.is_worked_row(at, word)
            ):
                found.append(
                    Name(self, word, "pub" in match.group(2), at, self.end_of(at, indent, word))
                )
        return found

    def is_cited_by_check(self, rest: str, word: str, indent: int) -> bool:
        """Whether the check cites it: an answer to a goal, a field of one, or a proof by hand."""
        is_goal = CITED_BY_CHECK.search(rest) or CITED_BY_CHECK.search(word)
        by_hand = BY_HAND.search(f"{self.path} {word}")
        return is_goal is not None or by_hand is not None or (indent > 0 and self.is_answer)

    def is_worked_row(self, at: int, word: str) -> bool:
        """Whether it is an example without variables that computes to what its type says."""
        own = self.lines[at + 1 : self.end_of(at, 0, word)]
        stated = [line for line in own if not line.startswith(" ") and line.strip()]
        return [line for line in stated if not line.startswith("unfolding")] == [f"{word} = refl"]

    def end_of(self, at: int, indent: int, word: str) -> int:
        """The line after the definition that begins there: its clauses, and what is farther in."""
        last = at + 1
        for k in range(at + 1, len(self.lines)):
            line = self.lines[k]
            if not line.strip():
                continue
            if indent_of(line) <= indent:
                first = line.split()[0]
                if first != word and first != "unfolding" and line.strip()[0] not in "])}|,":
                    break
            last = k + 1
        return last

    def live(self, word: str, skip: Name | None) -> bool:
        """Whether the word is in a line that belongs neither to that name nor to a dead one."""
        for at in self.places.get(word, []):
            if not any(n.first <= at < n.last for n in self.names if n is skip or n.dead):
                return True
        return False


Table = dict[tuple[str, str | None], list[tuple[Text, str, bool]]]


def texts() -> Iterator[Text]:
    """All files of the crates."""
    for path in files_below("crates", ""):
        if path.endswith((".antt", ".rt")):
            yield Text(path)


def importers(all_texts: list[Text]) -> Table:
    """By module and name: the files that import it, and under which word there. A name that is
    passed on is cited."""
    table: Table = {}
    for text in all_texts:
        for passed_on, module, names, alias in text.imports:
            for part in names.split(","):
                name, _, other = part.strip().partition(" as ")
                if name:
                    table.setdefault((module, name), []).append(
                        (text, other.strip() or name, passed_on)
                    )
            if not names:
                word = alias or module.split(".")[-1]
                table.setdefault((module, None), []).append((text, word, passed_on))
    return table


def paths_in(all_texts: list[Text]) -> set[str]:
    """The paths by which code names definitions."""
    return {
        path
        for text in all_texts
        if text.module is None
        for line in text.lines
        for path in PATH.findall(line)
    }


def is_cited(name: Name, table: Table, paths: set[str]) -> bool:
    text, word = name.text, name.word
    if text.live(word, name):
        return True
    if not name.public or text.module is None:
        return False
    by_name = table.get((text.module, word), [])
    by_module = table.get((text.module, None), [])
    if any(passed_on or other.live(alias, None) for other, alias, passed_on in by_name):
        return True
    if any(passed_on or other.live(word, None) for other, _, passed_on in by_module):
        return True
    return "::".join([*text.module.split(".")[2:], word]) in paths


def mark_dead(all_texts: list[Text]) -> list[Name]:
    """The names that nothing cites, or dead names alone."""
    table, paths = importers(all_texts), paths_in(all_texts)
    names = [name for text in all_texts for name in text.names]
    changed = True
    while changed:
        changed = False
        for name in names:
            if not name.dead and not is_cited(name, table, paths):
                name.dead = changed = True
    return [name for name in names if name.dead]


def is_within(name: Name, others: list[Name]) -> bool:
    """Whether the name is within the lines of another."""
    return any(
        o is not name and o.text is name.text and o.first <= name.first < o.last for o in others
    )


def main() -> int:
    parser = argparse.ArgumentParser(
        description=__doc__, formatter_class=argparse.RawDescriptionHelpFormatter
    )
    parser.add_argument("crates", metavar="CRATE", nargs="*", help="all, if none is named")
    wanted = crates_of(parser.parse_args().crates)
    all_texts = list(texts())
    dead = mark_dead(all_texts)
    shown = [name for name in dead if not is_within(name, dead) and name.text.crate in wanted]
    for name in sorted(shown, key=lambda name: name.text.crate):
        print(f"{name.text.path}:{name.first + 1}: {name.word}")
    print(f"{sum(len(text.names) for text in all_texts)} names, {len(shown)} that nothing cites")
    return 1 if shown or not all_texts else 0


if __name__ == "__main__":
    sys.exit(main())
