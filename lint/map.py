"""Shows that the map of crates is whole: python3 -m lint.map [--draw]. crates.txt and
docs/ARCHITECTURE.md have to name the same groups, and in each the same crates in the same order;
each crate is below those that it uses, and has its folder, its page under docs/crates and a claim
in docs/CLAIMS.md, but for crates of tests, which share the page docs/crates/tests.md; a file name
is under src/ of one crate only, but for those that have one role in every crate; and
docs/crates.svg shows the crates, groups and lines of crates.txt. Prints each difference, and ends
with status 1 if there is one. With --draw it has Graphviz draw the picture anew before it looks
(Debian's package graphviz).
"""

import argparse
import os
import re
import sys
from collections.abc import Iterator

from lint import picture
from lint.crates_list import Crate, listed, own_uses
from lint.repository import TOP, all_crates, files_in, text_of

IN_EVERY_CRATE = ("lib.rt", "main.rt", "tests.rt", "laws.rt", "limits.rt")


def mapped() -> list[Crate]:
    """The crates of the tables under the headings `### NAME` of docs/ARCHITECTURE.md."""
    found, group = [], ""
    for line in text_of("docs/ARCHITECTURE.md").split("\n"):
        if line.startswith("## "):
            group = ""
        if line.startswith("### "):
            group = line[4:].strip()
        row = re.match(r"\| \[`(\w+)`\]\(crates/[^)]*\) \|", line)
        if group and row:
            found.append(Crate(row[1], group, []))
    return found


def same_groups(crates: list[Crate], rows: list[Crate]) -> Iterator[str]:
    """The first place at which the list and the map name other crates."""
    ours = [f"{crate.group}: {crate.name}" for crate in crates] + ["the end"]
    theirs = [f"{row.group}: {row.name}" for row in rows] + ["the end"]
    for mine, other in zip(ours, theirs):
        if mine != other:
            yield f"crates.txt goes on with {mine}, docs/ARCHITECTURE.md with {other}"
            return


def below(crates: list[Crate]) -> Iterator[str]:
    """Crates that are listed before one that they use."""
    seen: set[str] = set()
    for name, uses in own_uses(crates).items():
        for use in uses:
            if use not in seen:
                yield f"{name} is in crates.txt above {use}, which it uses"
        seen.add(name)


def in_place(crates: list[Crate]) -> Iterator[str]:
    """Folders and pages that lack, or that are of no crate."""
    names = [crate.name for crate in crates]
    for name in all_crates():
        if name not in names and os.path.isdir(os.path.join(TOP, "crates", name, "src")):
            yield f"crates/{name} isn't in crates.txt"
    tests = text_of("docs/crates/tests.md").split("\n")
    for name in names:
        if name not in all_crates():
            yield f"crates/{name} isn't there"
        if name.endswith("_tests"):
            if f"## {name}" not in tests:
                yield f"docs/crates/tests.md has no part on {name}"
        elif not os.path.isfile(os.path.join(TOP, "docs/crates", name + ".md")):
            yield f"docs/crates/{name}.md isn't there"


def claimed(crates: list[Crate]) -> Iterator[str]:
    """Crates of the product without a claim, and claims of no crate."""
    names = {crate.name for crate in crates}
    found = set(re.findall(r"\]\(crates/(\w+)\.md", text_of("docs/CLAIMS.md"))) - {"tests"}
    for name in sorted(names - found):
        if not name.endswith("_tests"):
            yield f"docs/CLAIMS.md has no claim of {name}"
    for name in sorted(found - names):
        yield f"docs/CLAIMS.md has a claim of {name}, which is no crate"


def named_once(crates: list[Crate]) -> Iterator[str]:
    """File names that are under src/ of two crates."""
    holders: dict[str, list[str]] = {}
    for crate in crates:
        for file in files_in(f"crates/{crate.name}/src", ".rt"):
            if file not in IN_EVERY_CRATE:
                holders.setdefault(file, []).append(crate.name)
    for file, names in sorted(holders.items()):
        if len(names) > 1:
            yield f"src/{file} is in {' and '.join(names)}"


def picture_of(crates: list[Crate]) -> Iterator[str]:
    """What the picture says otherwise."""
    if not os.path.isfile(os.path.join(TOP, picture.PICTURE)):
        yield f"{picture.PICTURE} isn't there: python3 -m lint.map --draw"
        return
    found = list(picture.differences(crates, text_of(picture.PICTURE)))
    yield from found
    if found:
        yield f"{picture.PICTURE} isn't the picture of crates.txt: python3 -m lint.map --draw"


def main() -> int:
    parser = argparse.ArgumentParser(
        description=__doc__, formatter_class=argparse.RawDescriptionHelpFormatter
    )
    parser.add_argument("--draw", action="store_true", help="draws the picture anew, by Graphviz")
    given = parser.parse_args()
    crates, rows = listed(), mapped()
    if given.draw:
        text = picture.drawn(crates)
        with open(os.path.join(TOP, picture.PICTURE), "w", encoding="utf-8") as file:
            file.write(text)
    found = [
        *same_groups(crates, rows),
        *below(crates),
        *in_place(crates),
        *claimed(crates),
    ]
    found += [*named_once(crates), *picture_of(crates)]
    for difference in found:
        print(difference)
    groups = {crate.group for crate in crates}
    print(f"map: {len(crates)} crates in {len(groups)} groups, {len(found)} differences")
    return 1 if found or not crates else 0


if __name__ == "__main__":
    sys.exit(main())
