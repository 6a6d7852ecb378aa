#!/usr/bin/python3
"""The page in a real browser, before the given program: check.py PROGRAM [--store] [--only WORD] [--page FOLDER].

Each row says ok or FAIL; --store writes the pictures anew (look at them before they are kept).
"""
import argparse
import sys
import time
import traceback

from stage import Failure
from tests import rows_building, rows_clashes, rows_models, rows_page, rows_topics, rows_triangles
from tests.case import Case

GROUPS = (rows_building, rows_clashes, rows_topics, rows_models, rows_page, rows_triangles)


def run(case: Case, only: str) -> list[bool]:
    """All rows in their order; those that come later stand on what earlier ones left."""
    results = []
    for group in GROUPS:
        if only and only not in group.__name__:
            continue
        for name, row in group.ROWS:
            started = time.monotonic()
            try:
                row(case)
                fault = ""
            except Exception as failure:  # any failure is a row that failed
                kind = type(failure).__name__
                where = traceback.extract_tb(failure.__traceback__)
                line = [f"{f.filename.rsplit('/', 1)[-1]}:{f.lineno}" for f in where if "/tests/" in f.filename]
                fault = f"{kind} at {' '.join(line[-3:])}: {str(failure).strip()[:400]}"
            took = time.monotonic() - started
            print(f"{'FAIL' if fault else 'ok  '} {name} ({took:.1f} s){' ' + fault if fault else ''}", flush=True)
            results.append(not fault)
    return results


def main() -> int:
    """Starts the stage and the browser, runs the rows, and ends both."""
    parser = argparse.ArgumentParser(description="checks of the viewer")
    parser.add_argument("program")
    parser.add_argument("--store", action="store_true")
    parser.add_argument("--only", default="", help="the rows of one file, as topics")
    parser.add_argument("--page", default="", help="another folder of the page, as one with a fault")
    words = parser.parse_args()
    case = None
    try:
        case = Case(words.program, words.store, words.page)
        case.load()
        case.browser.open(case.address)
        case.ready()
        results = run(case, words.only)
    except Failure as failure:
        print(f"check: {failure}", file=sys.stderr)
        return 1
    finally:
        if case:
            case.close()
    for note in case.notes:
        print(note)
    print(f"rows: {sum(results)} passed, {results.count(False)} failed")
    return 0 if all(results) and results else 1


if __name__ == "__main__":
    sys.exit(main())
