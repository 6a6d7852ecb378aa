#!/usr/bin/env python3
"""Proves the crates that the program stands on and builds it: crates/bim_server/out/bim_server.

    python3 -m tools.build_program

Crates that don't stand on each other are proved at the same time, as many as there are processors
and memory for. For each crate that is done a line says how many are, which it is, and how long the
build has taken so far. What is proved is kept on this machine by rt ci, so an interrupted build
goes on where it was, and the gate takes it from there. What the prover says goes to
out/build.log. The must-fail edits and the crates of tests are left to the gate.
"""

import os
import re
import shutil
import subprocess
import sys
import tempfile
import time
from pathlib import Path

TOP = Path(__file__).resolve().parent.parent
NAME = "bim_server"
LOG = TOP / "out" / "build.log"
DONE = re.compile(r"rt: (\w+) (proved|is kept|NOT PROVED)")


def lines_of_crates() -> dict[str, str]:
    """Returns each crate's line of crates.txt by the crate's name."""
    lines = (TOP / "crates.txt").read_text().splitlines()
    return {
        re.split(r"[ :]", it, maxsplit=1)[0]: it for it in lines if it and not it.startswith("#")
    }


def below(name: str, lines: dict[str, str]) -> set[str]:
    """Returns the crate of that name and all crates of the repository that it stands on."""
    found, left = set(), [name]
    while left:
        it = left.pop()
        if it not in found and it in lines:
            found.add(it)
            left += lines[it].split(":", 1)[1].split()
    return found


def copy_crates(names: set[str], lines: dict[str, str], to: Path) -> None:
    """Copies the crates to a folder that rt ci takes for a repository, without what is no part of
    the proof."""
    for it in names:
        shutil.copytree(
            TOP / "crates" / it,
            to / "crates" / it,
            ignore=shutil.ignore_patterns("out", "must-fail"),
        )
    (to / "crates.txt").write_text("".join(lines[it] + "\n" for it in lines if it in names))
    shutil.copyfile(TOP / "HANDLES", to / "HANDLES")
    (to / ".git").mkdir()


def clock(seconds: float) -> str:
    return f"{seconds // 60:.0f} min {seconds % 60:.0f} s"


def prove(at: Path, many: int) -> bool:
    """Runs rt ci over the copy, says how far it is, and returns whether all was proved."""
    begun, done, failed = time.monotonic(), 0, False
    LOG.parent.mkdir(parents=True, exist_ok=True)
    with (
        open(LOG, "w") as log,
        subprocess.Popen(
            ["rt", "ci"],
            cwd=at,
            stdin=subprocess.DEVNULL,
            stdout=subprocess.PIPE,
            stderr=subprocess.STDOUT,
            text=True,
        ) as run,
    ):
        assert run.stdout
        for line in run.stdout:
            log.write(line)
            found = DONE.match(line)
            if found:
                done, failed = done + 1, failed or found[2] == "NOT PROVED"
                how = "" if found[2] == "proved" else f" ({found[2]})"
                print(
                    f"{done} of {many} {found[1]} {clock(time.monotonic() - begun)}{how}",
                    flush=True,
                )
    return run.returncode == 0 and not failed


def main() -> int:
    lines = lines_of_crates()
    names = below(NAME, lines)
    print(
        f"make build: {len(names)} crates to prove, what was proved on this machine is kept",
        file=sys.stderr,
    )
    with tempfile.TemporaryDirectory(prefix="yulfrets-build-") as room:
        at = Path(room) / "repository"
        at.mkdir()
        copy_crates(names, lines, at)
        if not prove(at, len(names)):
            print(
                f"make build: not proved; what the prover said is in {LOG.relative_to(TOP)}",
                file=sys.stderr,
            )
            return 1
        program = TOP / "crates" / NAME / "out" / NAME
        program.parent.mkdir(exist_ok=True)
        part = program.with_name(f"{NAME}.{os.getpid()}")
        shutil.copyfile(at / "crates" / NAME / "out" / NAME, part)
        part.chmod(0o755)
        part.rename(program)
    print(f"make build: {program.relative_to(TOP)}", file=sys.stderr)
    return 0


if __name__ == "__main__":
    sys.exit(main())
