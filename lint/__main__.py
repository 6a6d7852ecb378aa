"""Runs all lints: python3 -m lint. Prints what each finds, and ends with status 1 where one finds
something. They run side by side.
"""

import concurrent.futures
import os
import subprocess
import sys
import time

from lint.repository import TOP

LINTS = (
    "dead_names",
    "python",
    "map",
    "one_place",
    "spec_lines",
    "docstrings",
    "edits",
    "pages",
    "plain",
    "claims",
    "spec_names",
    "spec_reach",
    "version_number",
)


def run(name: str) -> tuple[str, int, float]:
    """What a lint prints, its status and its seconds."""
    began = time.monotonic()
    words = [sys.executable, "-m", f"lint.{name}"]
    ran = subprocess.run(words, cwd=TOP, capture_output=True, text=True, check=False)
    return (ran.stdout + ran.stderr).strip(), ran.returncode, time.monotonic() - began


def main() -> int:
    failed = []
    with concurrent.futures.ThreadPoolExecutor(os.cpu_count() or 2) as pool:
        for name, (text, status, seconds) in zip(LINTS, pool.map(run, LINTS)):
            lines = text.split("\n")
            for line in lines[:-1]:
                print(f"  {line}")
            print(f"{name}: {'FAILS: ' if status else ''}{lines[-1]} ({seconds:.1f} s)", flush=True)
            if status:
                failed.append(name)
    if failed:
        print(f"lints that find something: {', '.join(failed)}")
    return 1 if failed else 0


if __name__ == "__main__":
    sys.exit(main())
