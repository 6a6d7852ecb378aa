"""The repository's files, by their paths from its top."""

import os
import sys
from collections.abc import Iterator

TOP = os.path.dirname(os.path.dirname(os.path.abspath(__file__)))
CRATES = os.path.join(TOP, "crates")


def text_of(path: str) -> str:
    """A file's text."""
    with open(os.path.join(TOP, path), encoding="utf-8") as file:
        return file.read()


def all_crates() -> list[str]:
    """The names of the folders under crates/."""
    return sorted(name for name in os.listdir(CRATES) if os.path.isdir(os.path.join(CRATES, name)))


def crates_of(words: list[str]) -> list[str]:
    """The crates that the words name, or all; ends the script where one isn't there."""
    unknown = [word for word in words if word not in all_crates()]
    if unknown:
        sys.exit(f"crates/{unknown[0]} isn't there")
    return words or all_crates()


def files_in(folder: str, ending: str) -> list[str]:
    """The names of the files with an ending in a folder, which needn't be there."""
    path = os.path.join(TOP, folder)
    names = os.listdir(path) if os.path.isdir(path) else []
    return sorted(name for name in names if name.endswith(ending))


def files_below(folder: str, ending: str) -> Iterator[str]:
    """The paths of the files with an ending anywhere below a folder, but for what is built."""
    for place, folders, names in os.walk(os.path.join(TOP, folder)):
        folders[:] = sorted(name for name in folders if name not in ("out", "data"))
        for name in sorted(names):
            if name.endswith(ending):
                yield os.path.relpath(os.path.join(place, name), TOP)
