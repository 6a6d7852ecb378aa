"""Runs the reference in place of the program, or over the cases: python3 -m tests.oracle (the
package says how)."""

import argparse
import os
import sys

from tests import oracle
from tests.case_files import HERE, all_cases, chosen, input_of, read
from tests.oracle.commands import check, generate


def replay_words(words: list[str]) -> argparse.Namespace:
    """The words of `replay` that the reference knows; an error where there are others."""
    parser = argparse.ArgumentParser(prog="replay", add_help=False, allow_abbrev=False)
    parser.add_argument("--at", type=int, required=True)
    parser.add_argument("--projects", type=int, default=1)
    parser.add_argument("--buckets", type=int, default=-1)
    return parser.parse_args(words)


def replay(data: bytes, words: list[str]) -> tuple[bytes, int]:
    given = replay_words(words)
    return oracle.replay(data, given.projects, given.at, given.buckets)


def run(words: list[str], data: bytes, folder: str) -> tuple[bytes, int]:
    """What a command prints, and its status; the files that it names are in the folder."""
    if words[:1] == ["check"]:
        return check(words[1:], folder)
    if words[:1] == ["generate"]:
        return generate(words[1:])
    return replay(data, words[1:] if words[:1] == ["replay"] else words)


def is_known(folder: str) -> bool:
    """Whether a case is a session of `replay` at a fixed time, by words of the grammar, or a call
    of `check` or `generate`."""
    words = read(folder, "args").decode().splitlines()
    if words[:1] in (["check"], ["generate"]):
        return True
    has_time = any(word.partition("=")[0] == "--at" for word in words)
    return (
        words[:1] == ["replay"]
        and has_time
        and "--" not in words
        and int(read(folder, "status")) != 2
    )


def answered(path: str) -> tuple[bytes, int]:
    """What the reference prints in place of the program in a case, and the status."""
    folder = os.path.join(HERE, path)
    words = read(folder, "args").decode().splitlines()
    return run(words, input_of(folder), os.path.join(folder, "files"))


def compare(groups: list[str]) -> int:
    """Compares the reference with the cases that it can follow."""
    agree = beyond = differ = 0
    for path in chosen(all_cases(), groups):
        folder = os.path.join(HERE, path)
        if not is_known(folder):
            continue
        wanted = read(folder, "stdout")
        try:
            got = answered(path)
        except oracle.Beyond:
            beyond += 1
            continue
        if got == (wanted, int(read(folder, "status"))):
            agree += 1
        else:
            differ += 1
            at = len(os.path.commonprefix([got[0], wanted]))
            ours, theirs = got[0][at : at + 60], wanted[at : at + 60]
            print(f"{path}: status {got[1]}, from byte {at} {ours!r}, wanted {theirs!r}")
    print(f"{agree} agree, {differ} differ, {beyond} ask for more")
    return 1 if differ or not agree else 0


def main() -> int:
    words = sys.argv[1:]
    if words[:1] == ["--cases"]:
        return compare(words[1:])
    has_input = words[:1] not in (["check"], ["generate"])
    try:
        written, status = run(words, sys.stdin.buffer.read() if has_input else b"", ".")
    except oracle.Beyond as reason:
        sys.exit(f"the stream asks for what this program doesn't know: {reason}")
    sys.stdout.buffer.write(written)
    return status


if __name__ == "__main__":
    sys.exit(main())
