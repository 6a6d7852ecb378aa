"""The folders of the cases: which there are, which words name, and what is in one (cases/README.md
says how it is laid out)."""

import os
import sys

HERE = os.path.join(os.path.dirname(os.path.dirname(os.path.abspath(__file__))), "cases")
NEEDED, OPTIONAL = {"args", "stdin", "stdout", "status"}, {"files", "filled", "clock"}


class Failure(Exception):
    """Why a case fails."""


def all_cases(group: str = "") -> list[str]:
    """Returns the paths of all cases below a group. A folder of nothing but folders is a group, any
    other a case."""
    found: list[str] = []
    for name in sorted(os.listdir(os.path.join(HERE, group))):
        path = os.path.join(group, name)
        if not os.path.isdir(os.path.join(HERE, path)):
            continue
        inside = list(os.scandir(os.path.join(HERE, path)))
        holds_groups = inside and all(it.is_dir() and it.name != "files" for it in inside)
        found += all_cases(path) if holds_groups else [path]
    return found


def fits(word: str, path: str) -> bool:
    """Whether the word names folders on the path, the case's own among them."""
    wanted, names = word.strip("/").split("/"), ["cases"] + path.split("/")
    return any(names[at : at + len(wanted)] == wanted for at in range(len(names)))


def chosen(paths: list[str], words: list[str]) -> list[str]:
    """Returns the cases that one of the words fits: those of the groups that it names, else those
    with it in their path."""
    if not words:
        return paths
    taken: set[str] = set()
    for word in words:
        found = [it for it in paths if fits(word, it)] or [it for it in paths if word in it]
        if not found:
            sys.exit(f"no case fits {word}")
        taken.update(found)
    return [it for it in paths if it in taken]


def read(folder: str, name: str) -> bytes:
    """The bytes of one of a case's files."""
    with open(os.path.join(folder, name), "rb") as file:
        return file.read()


def check_layout(folder: str) -> None:
    """Fails where a folder lacks a file of a case, or has another."""
    names = set(os.listdir(folder))
    if NEEDED - names:
        raise Failure("its folder lacks " + ", ".join(sorted(NEEDED - names)))
    if names - NEEDED - OPTIONAL:
        raise Failure(
            "its folder has what no case has: " + ", ".join(sorted(names - NEEDED - OPTIONAL))
        )


def input_of(folder: str) -> bytes:
    """The input of a case, filled up where the case says so."""
    given = read(folder, "stdin")
    if os.path.exists(os.path.join(folder, "filled")):
        body = given.index(b"\r\n\r\n") + 4
        given += b" " * (int(read(folder, "filled")) - (len(given) - body))
    return given
