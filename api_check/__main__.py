"""python3 -m api_check PROGRAM: checks the document, and the program by it."""

from __future__ import annotations

import argparse
import concurrent.futures
import os
import random
import sys
import time
from pathlib import Path

from . import agreement, api_md, coverage, examples, standard
from .directed import check_directed
from .document import Document
from .drawn import check_drawn
from .faults_of_bytes import check_bytes
from .full_book import check_full
from .full_lists import check_lists
from .generated_client import check_generated
from .judge import Judge
from .places import API_MD, DOCUMENT
from .planted import plant_live, plant_texts
from .report import Report
from .scene import NotReady, Scene
from .server import Server
from .sessions import check_memory, check_pending
from .style import check_style
from .wire import Client, CutOff

REQUESTS = 3_000


def check_document(report: Report, document: Document, api_text: str) -> bool:
    """Everything that needs no server. Returns whether the document is sound enough to go on."""
    failed = report.failed
    report.add("the standard's schema", standard.by_the_standard(document))
    report.add("JSON Schema 2020-12", standard.by_json_schema(document))
    report.add("references", standard.by_references(document))
    if report.failed > failed:
        return False
    report.add("operations", standard.by_operations(document))
    count, faults = examples.check_examples(document)
    report.add("examples", faults, f"{count} compared with their cases")
    for name, found in agreement.Agreement(api_md.read_api(api_text), document).parts():
        report.add(f"docs/API.md: {name}", found)
    return True


def _note(asked: int, began: float) -> str:
    return f"{asked} requests, {time.monotonic() - began:.1f} s"


def _started(report: Report, judge: Judge, program: str, count: int, seed: int) -> None:
    """What is asked of a server that goes on."""
    with Server(program) as server:
        scene = Scene(Client(server.port))
        scene.prepare()
        began = time.monotonic()
        report.doing("asking for each status")
        asked, faults = check_directed(judge, scene)
        report.add("each status by a request of its own", faults, _note(asked, began))
        began = time.monotonic()
        report.doing("sending faults of bytes")
        asked, faults = check_bytes(judge, server.port)
        report.add("faults of bytes", faults, _note(asked, began))
        began = time.monotonic()
        report.doing(f"drawing {count} requests")
        asked, faults = check_drawn(judge, scene, count, seed)
        report.add(f"drawn requests, seed {seed}", faults, _note(asked, began))
        report.add("the server is still there", [] if server.runs() else ["it ended"])


def check_program(report: Report, document: Document, program: str, count: int, seed: int) -> None:
    """Everything that is asked of the program."""
    judge, full_judge, lists_judge = Judge(document), Judge(document), Judge(document)
    with concurrent.futures.ThreadPoolExecutor(2) as pool:
        began = time.monotonic()
        full = pool.submit(check_full, full_judge, program)
        lists = pool.submit(check_lists, lists_judge, program)
        report.add("202, by a replay", check_pending(judge, program))
        _started(report, judge, program, count, seed)
        called, faults = check_generated(document, program)
        report.add("a generated client", faults, f"{called} calls")
        report.doing("failing allocations")
        memory = check_memory(judge, program)
        note = memory.reason or f"{memory.runs} runs"
        report.add("503, by allocations that fail", memory.faults, note)
        report.doing("filling a journal and lists")
        filled = full.result()
        seconds = time.monotonic() - began
        note = filled.reason or f"{filled.count} requests, within {seconds:.1f} s"
        report.add("507, of a full journal", filled.faults, note)
        listed = lists.result()
        seconds = time.monotonic() - began
        note = listed.reason or f"{listed.count} requests, within {seconds:.1f} s"
        report.add("507, of full lists", listed.faults, note)
    judge.add(full_judge)
    judge.add(lists_judge)
    excused = coverage.excuses(memory.reason, filled.reason, listed.reason)
    note, missing = coverage.check_coverage(judge, excused)
    report.add("coverage", missing, note)
    coverage.print_table(judge, excused)


def _words() -> argparse.Namespace:
    words = argparse.ArgumentParser(prog="api_check", description=__doc__)
    words.add_argument("program", metavar="PROGRAM", nargs="?", help="the built bim_server")
    words.add_argument("--seed", type=int, help="draw the same requests again")
    words.add_argument("--requests", type=int, default=REQUESTS, help="how many are drawn")
    words.add_argument("--planted", action="store_true", help="plant faults too, and see them")
    words.add_argument("--style", action="store_true", help="run the linters too")
    words.add_argument("--document", type=Path, default=DOCUMENT)
    words.add_argument("--api", type=Path, default=API_MD)
    return words.parse_args()


def main() -> int:
    """Runs all, and returns the exit status."""
    given = _words()
    program = None if given.program is None else os.path.abspath(given.program)
    if program is not None and not os.access(program, os.X_OK):
        print(f"api_check: {program} is no program: build bim_server first", file=sys.stderr)
        return 2
    seed = random.SystemRandom().randrange(10**6) if given.seed is None else given.seed
    report = Report()
    if given.style:
        check_style(report)
    document = Document.read(given.document)
    sound = check_document(report, document, given.api.read_text(encoding="utf-8"))
    if sound and program is not None:
        print(f"seed {seed}")
        try:
            check_program(report, document, program, given.requests, seed)
            if given.planted:
                plant_texts(report, document)
                plant_live(report, document, program)
        except (NotReady, CutOff, OSError) as why:
            report.add("the program answers", [str(why)])
    return report.end()


if __name__ == "__main__":
    sys.exit(main())
