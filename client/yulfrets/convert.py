"""Makes a file of the server's profile by the converter `ifc2grid`, where it is there."""

from __future__ import annotations

import json
import os
import shutil
import subprocess
from dataclasses import dataclass, field
from pathlib import Path
from typing import Any

from .errors import FileFault, Refused, UsageFault

PROGRAM = "ifc2grid"
MENDED = {"U4", "U7", "U8", "U9", "U10", "U11", "U13", "U14", "U15", "U16", "U17", "U18", "U19"}
"""The refusals of a file that the converter may mend; it can't mend one that is broken."""
NOTES = {
    "left_out": "left out",
    "partly": "left out in part",
    "in_doubt": "in doubt",
    "doubts": "in doubt",
}
"""The lists of the converter's report, and what their entries say."""
LONGEST = 3600.0


@dataclass
class Converted:
    """What a file was converted to: one file, or several where the server's limits ask for it."""

    parts: dict[str, Path]
    """The files by what is put behind the model's name: nothing, or `.1`, `.2` and so on."""
    whole: bool
    report: dict[str, Any] = field(default_factory=dict)


def converter(named: str | None) -> str | None:
    """The converter's program: the one that is named, else that of the environment or the path."""
    wanted = named or os.environ.get("YULFRETS_CONVERTER")
    found = shutil.which(wanted or PROGRAM)
    if wanted and not found:
        raise UsageFault(f"{wanted}: there is no such program", "see --converter")
    return found


def read_report(path: Path) -> dict[str, Any]:
    """The converter's report, empty where there is none."""
    try:
        read = json.loads(path.read_text("utf-8"))
    except (OSError, ValueError):
        return {}
    return read if isinstance(read, dict) else {}


def convert(
    program: str, source: Path, folder: Path, origin: str | None, shows: bool = False
) -> Converted:
    """Converts a file into a folder, or fails with the converter's own words.

    The converter's progress is seen where `shows` says so.
    """
    target, report = folder / "converted.ifc", folder / "report.json"
    words = [program, str(source), str(target), "--report", str(report)]
    words += ["--origin-file", origin] if origin else []
    try:
        done = subprocess.run(
            words,
            stdin=subprocess.DEVNULL,
            stdout=subprocess.DEVNULL,
            stderr=None if shows else subprocess.PIPE,
            timeout=LONGEST,
            check=False,
        )
    except subprocess.TimeoutExpired as fault:
        raise Refused(f"{source}: the converter took over an hour", "split the file") from fault
    except OSError as fault:
        raise FileFault(f"{program}: {fault.strerror or fault}") from fault
    if done.returncode not in (0, 1):
        raise not_converted(program, source, done)
    parts = parts_of(target)
    if not parts:
        raise Refused(f"{source}: {Path(program).name} wrote no file", "see its report")
    return Converted(parts, done.returncode == 0, read_report(report))


def not_converted(program: str, source: Path, done: subprocess.CompletedProcess[bytes]) -> Refused:
    """Why the converter made nothing."""
    lines = (done.stderr or b"").decode("utf-8", "replace").strip().splitlines()
    why = lines[-1] if lines else f"it ended with status {done.returncode}"
    return Refused(
        f"{source}: {Path(program).name} can't convert it: {why}",
        "export the model anew as IFC4 Reference View",
        converter_status=done.returncode,
    )


def parts_of(target: Path) -> dict[str, Path]:
    """The files that the converter wrote: OUT.ifc, or OUT.1.ifc, OUT.2.ifc and so on."""
    if target.exists():
        return {"": target}
    found = {}
    for path in target.parent.glob(f"{target.stem}.*.ifc"):
        number = path.name.removeprefix(target.stem + ".").removesuffix(".ifc")
        if number.isdecimal():
            found[int(number)] = path
    return {f".{number}": found[number] for number in sorted(found)}


def is_needless(report: dict[str, Any]) -> bool:
    """Whether the converter saw nothing for which the server wouldn't take the file itself."""
    return report.get("why_not_as_it_is") == []


def left_out(report: dict[str, Any]) -> list[str]:
    """What the converter left out or doubts, in lines, from the lists of its report."""
    lines: list[str] = []
    for member, words in NOTES.items():
        value = report.get(member)
        for one in value if isinstance(value, list) else []:
            if isinstance(one, dict):
                one = f"{one.get('class')} {one.get('guid')}: {one.get('reason')}"
            lines.append(f"{words}: {one}")
    return lines
