#!/usr/bin/env python3
"""Makes the tables of ifc_keywords anew: python3 -m tools.keywords [--search].

The keywords are listed in crates/ifc_keywords/specs/Codes.antt, in the order of their numbers. The
list and the table of hashes in src/known_words.rt are written from it. A word's hash is (A * its
length + B * its fourth byte + C * its middle byte + D * its last byte) modulo 512; A to D are those
of `hash_of` in Codes.antt, so that no two keywords share a hash. Where two do, --search looks for
other factors, by rising sums, and prints the first that serve: they are then written into `hash_of`
and into `hash` by hand, and the script is run again.
"""

import argparse
import itertools
import re
import sys
from pathlib import Path

CRATE = Path(__file__).resolve().parent.parent / "crates" / "ifc_keywords"
CODES, WORDS = CRATE / "specs" / "Codes.antt", CRATE / "src" / "known_words.rt"
SIZE, NONE = 512, 255


def hash_of(word: str, factors: tuple[int, ...]) -> int:
    a, b, c, d = factors
    size = len(word)
    return (a * size + b * ord(word[3]) + c * ord(word[size // 2]) + d * ord(word[-1])) % SIZE


def search(words: list[str]) -> tuple[int, ...] | None:
    """Returns the first factors by which all words have hashes of their own."""
    for most in range(1, 64):
        for factors in itertools.product(range(1, most + 1), repeat=4):
            if max(factors) == most and len({hash_of(it, factors) for it in words}) == len(words):
                return factors
    return None


def table_of(words: list[str], factors: tuple[int, ...]) -> list[int]:
    table = [NONE] * SIZE
    for number, word in enumerate(words):
        if table[hash_of(word, factors)] != NONE:
            sys.exit(
                f"{word} and {words[table[hash_of(word, factors)]]} share a hash: run with --search"
            )
        table[hash_of(word, factors)] = number
    return table


def rows(table: list[int]) -> str:
    """Returns the numbers in lines of at most 100 columns, as the formatter lays them out."""
    lines, line = [], "   "
    for number in table:
        if len(line) + len(f" {number},") > 100:
            lines.append(line)
            line = "   "
        line += f" {number},"
    return "\n".join([*lines, line])


def main() -> int:
    parser = argparse.ArgumentParser(description="Makes the tables of ifc_keywords anew.")
    parser.add_argument("--search", action="store_true", help="looks for other factors")
    asked = parser.parse_args()
    said = CODES.read_text()
    words = re.findall(r'codes "(\w+)"', said)
    found = re.search(
        r"\((\d+) \* length k \+ (\d+) \* .*? \+ (\d+) \* .*?\n?.*?\+ (\d+) \* ", said, re.S
    )
    assert found
    factors = tuple(int(it) for it in found.groups())
    if asked.search:
        print("factors", search(words))
        return 0
    text = WORDS.read_text()
    listed = "".join(f'    "{it}",\n' for it in words)
    text = re.sub(
        r"(const KNOWN: \[&str; )[^\]]*(\] = \[\n).*?(\];)",
        rf"\g<1>KEYWORDS as usize\g<2>{listed}\g<3>",
        text,
        count=1,
        flags=re.S,
    )
    text = re.sub(
        r"(const TABLE: \[u8; 512\] = \[\n).*?\n(\];)",
        rf"\g<1>{rows(table_of(words, factors))}\n\g<2>",
        text,
        count=1,
        flags=re.S,
    )
    WORDS.write_text(text)
    return 0


if __name__ == "__main__":
    sys.exit(main())
