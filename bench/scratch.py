"""A scratch repository with copies of some crates and a program over them, which `rt run` proves
and builds."""

import pathlib
import shutil
import subprocess
import sys

from bench.stands_on import TOP, stands_on

HERE = pathlib.Path(TOP)


def built_over(
    work: pathlib.Path,
    below: list[str],
    name: str,
    uses: str,
    source: pathlib.Path,
    left_out: tuple[str, ...],
    proofs: dict[str, pathlib.Path] | None = None,
) -> pathlib.Path:
    """The path of the program of a source over these crates, of which some folders are left out;
    with the files that prove its loops, by the function that they are of."""
    for crate in below:
        ignored = shutil.ignore_patterns(*left_out)
        shutil.copytree(HERE / "crates" / crate, work / "crates" / crate, ignore=ignored)
    program = work / "crates" / name
    (program / "src").mkdir(parents=True)
    shutil.copy(source, program / "src" / "main.rt")
    for function, file in (proofs or {}).items():
        (program / "proofs" / function).mkdir(parents=True)
        shutil.copy(file, program / "proofs" / function / "Invariants.antt")
    lines = stands_on(below) | {name: uses}
    (work / "crates.txt").write_text(
        "".join(f"{crate}: {others}\n" for crate, others in lines.items())
    )
    subprocess.run(["git", "init", "-q"], cwd=work, check=True)
    run = subprocess.run(
        ["rt", "run"],
        cwd=program,
        stdin=subprocess.DEVNULL,
        capture_output=True,
        text=True,
        check=False,
    )
    made = program / "out" / name
    if not made.exists():
        sys.exit(run.stdout[-4000:] + run.stderr[-4000:])
    return made
