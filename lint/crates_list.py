"""What crates.txt says: the crates in their groups, each with what it is built on."""

from dataclasses import dataclass

from lint.repository import text_of


@dataclass
class Crate:
    """A crate, its group, and the crates of this repository and of the kit that it uses."""

    name: str
    group: str
    uses: list[str]


def listed() -> list[Crate]:
    """The crates of crates.txt in their order. A line `## NAME` begins a group; other comments say
    nothing here."""
    found, group = [], ""
    for line in text_of("crates.txt").split("\n"):
        if line.startswith("## "):
            group = line[3:].strip()
        words, _, uses = line.partition("#")[0].partition(":")
        if words.strip():
            found.append(Crate(words.split()[0], group, uses.split()))
    return found


def own_uses(crates: list[Crate]) -> dict[str, list[str]]:
    """By crate, those of this repository that it uses."""
    names = {crate.name for crate in crates}
    return {crate.name: [use for use in crate.uses if use in names] for crate in crates}


def reduced(crates: list[Crate]) -> dict[str, list[str]]:
    """By crate, those that it uses and that none of the others that it uses has below it."""
    direct, below = own_uses(crates), dict[str, set[str]]()
    for name, uses in direct.items():  # each is below those that it uses, so theirs are there
        below[name] = set(uses).union(*(below.get(use, set()) for use in uses))
    return {
        name: [use for use in uses if not any(use in below.get(other, set()) for other in uses)]
        for name, uses in direct.items()
    }
