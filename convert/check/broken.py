#!/usr/bin/env python3
"""broken.py IFC2GRID FOLDER COUNT SEED: made files with random faults: none may crash the converter or hang it."""

from __future__ import annotations

import random
import re
import subprocess
import sys
from collections import Counter
from concurrent.futures import ThreadPoolExecutor
from pathlib import Path

from given import given

REFERENCE = re.compile(r"#\d+")
NUMBER = re.compile(r"-?\d+\.\d*(?:E-?\d+)?")
KEYWORD = re.compile(r"IFC[A-Z0-9]+")
LIST = re.compile(r"\([^()]*\)")
ODD_NUMBERS = ["0.", "-1.", "1.E30", "1.E-30", "1.E400", "1000000.", "$", "'x'", ".T.", "()", "(1.,2.)"]
ODD_LISTS = ["()", "$", "(#40)", "((1,2,3))", "(1,1,1)", "(999)", "(-1)"]
SECONDS = 20


def replaced(text: str, place: re.Match[str], other: str) -> str:
    return text[: place.start()] + other + text[place.end() :]


def broken(text: str, draw: random.Random) -> str:
    """The text with one to four faults behind its header."""
    start = text.index("DATA;")
    for _ in range(draw.randint(1, 4)):
        kind = draw.randint(0, 6)
        places = {0: REFERENCE, 1: REFERENCE, 2: NUMBER, 5: KEYWORD, 6: LIST}.get(kind)
        found = [m for m in places.finditer(text) if m.start() > start] if places else []
        at = draw.randrange(start, len(text))
        if kind == 3:
            text = text[:at] + text[at + draw.randint(1, 40) :]
        elif kind == 4:
            text = text[:at] + draw.choice("();,#$*'=.") + text[at:]
        elif found and kind in (0, 1, 5):
            text = replaced(text, draw.choice(found), draw.choice(found).group())
        elif found:
            text = replaced(text, draw.choice(found), draw.choice(ODD_NUMBERS if kind == 2 else ODD_LISTS))
    return text


class Trial:
    def __init__(self, program: str, folder: Path) -> None:
        self.program = program
        self.folder = folder

    def run(self, job: tuple[int, str]) -> str:
        """How the converter ends on a file; one that fails is kept."""
        number, text = job
        source, target = self.folder / f"in_{number}.ifc", self.folder / f"out_{number}.ifc"
        report = self.folder / f"report_{number}.json"
        source.write_text(text)
        words = [self.program, str(source), str(target), "--report", str(report)]
        try:
            status = subprocess.run(words, capture_output=True, timeout=SECONDS).returncode
            end = f"status {status}" if status in (0, 1, 3) else f"CRASH {status}"
        except subprocess.TimeoutExpired:
            end = "HANG"
        if report.exists() and "please report this file" in report.read_text():
            end = "FAULT within the converter"
        for path in (target, report):
            path.unlink(missing_ok=True)
        if end.startswith("status"):
            source.unlink()
        return end


def main() -> int:
    program, place, *numbers = given(__doc__, "ifc2grid", "folder", "count", "seed")
    folder, (count, seed) = Path(place) / "broken", map(int, numbers)
    folder.mkdir(parents=True, exist_ok=True)
    draw = random.Random(seed)
    made = sorted(path for path in folder.parent.glob("*.ifc") if not path.name.endswith(".out.ifc"))
    texts = [path.read_text() for path in made if path.stat().st_size < 20000]
    texts = [text for text in texts if "END-ISO" in text]
    jobs = [(number, broken(draw.choice(texts), draw)) for number in range(count)]
    with ThreadPoolExecutor(2) as pool:
        ends = Counter(pool.map(Trial(program, folder).run, jobs))
    failed = sum(times for end, times in ends.items() if not end.startswith("status"))
    print(f"broken files: {count - failed} passed, {failed} failed ({dict(sorted(ends.items()))})")
    return 1 if failed else 0


if __name__ == "__main__":
    sys.exit(main())
