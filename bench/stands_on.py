#!/usr/bin/env python3
"""The lines of crates.txt that a program over some of the crates needs: what each uses.

    bench/stands_on.py CRATE ..           prints the lines of these crates and of all below them
    bench/stands_on.py --names CRATE ..   prints their names alone
"""

import argparse
import os
import sys

TOP = os.path.dirname(os.path.dirname(os.path.abspath(__file__)))


def listed() -> dict[str, str]:
    """Each crate in the order of crates.txt, with what it uses as it is written there."""
    with open(os.path.join(TOP, "crates.txt"), encoding="utf-8") as file:
        lines = [line.partition("#")[0].strip() for line in file]
    return {line.split(":")[0].split()[0]: line.partition(":")[2].strip() for line in lines if line}


def stands_on(names: list[str]) -> dict[str, str]:
    """For each of these crates, in this order, those that it uses, as crates.txt names them."""
    crates = listed()
    return {name: crates[name] for name in names}


def with_below(names: list[str]) -> dict[str, str]:
    """These crates and all of this repository below them, in the order of crates.txt, each with
    what it uses."""
    crates, left = listed(), list(names)
    wanted: set[str] = set()
    while left:
        name = left.pop()
        if name in crates and name not in wanted:
            wanted.add(name)
            left += crates[name].split()
    return {name: uses for name, uses in crates.items() if name in wanted}


def main() -> int:
    words = argparse.ArgumentParser(
        description=__doc__, formatter_class=argparse.RawDescriptionHelpFormatter
    )
    words.add_argument("--names", action="store_true", help="prints the names alone")
    words.add_argument("crates", metavar="CRATE", nargs="+")
    given = words.parse_args()
    unknown = [name for name in given.crates if name not in listed()]
    if unknown:
        sys.exit(f"crates.txt has no crate {unknown[0]}")
    for name, uses in with_below(given.crates).items():
        print(name if given.names else f"{name}: {uses}".rstrip())
    return 0


if __name__ == "__main__":
    sys.exit(main())
