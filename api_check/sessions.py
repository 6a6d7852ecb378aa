"""Recorded sessions: 202 by a replay that checks no bucket, and 503 by allocations that fail in turn."""

from __future__ import annotations

import os
import subprocess
import tempfile
from collections.abc import Iterator
from dataclasses import dataclass
from pathlib import Path

from .case_reader import read_responses
from .directed import Directed
from .document import Operation
from .judge import Judge
from .places import FAILING_C
from .scene import Scene, guid, project, target
from .wire import Client, Reply, Request

REPLAY_SECONDS = 60
MOST_RUNS, LAST_RUNS, MOST_TOPICS = 4_000, 40, 40
DELETIONS = ("deleteViewpoint", "deleteComment", "deleteTopic", "deleteModel")
NOWHERE = 1 << 40
ORDER = (
    "putRules putModel listClashes createTopicOfClash createTopic createComment createViewpoint "
    "listProjects getProject listTopics getTopic replaceTopic listComments getComment "
    "replaceComment listViewpoints getViewpoint getSelection getColoring getVisibility getVersion "
    "deleteViewpoint deleteComment deleteTopic deleteModel"
).split()


# The topic of the clash is number 1 and its viewpoint 2.
IDS = {
    "project_id": project(1),
    "topic_guid": guid(3),
    "comment_guid": guid(4),
    "viewpoint_guid": guid(5),
    "version": "2",
    "place": "0",
    "model_name": "m",
}


@dataclass(frozen=True)
class Session:
    """Requests over one connection, each for an operation."""

    operations: tuple[Operation, ...]
    data: bytes


def session_of(judge: Judge, names: list[str]) -> Session:
    """A session of one request for each name."""
    operations = tuple(judge.document.named(it) for it in names)
    directed = Directed(judge.document, Scene(Client(0)))
    requests = [Request(it.method, target(it, IDS), directed.body(it)) for it in operations]
    return Session(operations, b"".join(it.bytes() for it in requests))


def _judged(judge: Judge, session: Session, output: bytes) -> list[str]:
    faults = []
    for operation, it in zip(session.operations, read_responses(output)):
        reply = Reply(it.status, it.headers, it.body)
        faults += judge.judge(operation, reply, operation.method)
    return faults


def check_pending(judge: Judge, program: str) -> list[str]:
    """202: a replay that checks no bucket behind its answers."""
    session = session_of(judge, ORDER[:4])
    run = subprocess.run(
        [program, "replay", "--buckets", "0"],
        input=session.data,
        stdout=subprocess.PIPE,
        timeout=REPLAY_SECONDS,
        check=False,
    )
    faults = _judged(judge, session, run.stdout)
    statuses = [it.status for it in read_responses(run.stdout)]
    if statuses != [200, 201, 202, 202]:
        faults.append(f"replay --buckets 0 gave {statuses}, wanted 200, 201, 202, 202")
    return faults


class Failing:
    """Runs the program with one allocation after another failing, by the library of tests/failing/failing.c."""

    def __init__(self, program: str, folder: str, session: Session) -> None:
        self.program = program
        self.library = os.path.join(folder, "failing.so")
        self.input = os.path.join(folder, "input")
        Path(self.input).write_bytes(session.data)
        build = ["cc", "-O1", "-shared", "-fPIC", "-o", self.library, str(FAILING_C), "-ldl"]
        subprocess.run(build, check=True)

    def runs(self, first: int, last: int) -> Iterator[tuple[int, bytes]]:
        """How many allocations each run made, and what it wrote."""
        read, write = os.pipe()
        settings = {"KIND": "memory", "EACH": f"{first}-{last}", "INPUT": self.input, "OUT": write}
        given = {f"FAIL_{name}": str(value) for name, value in settings.items()}
        run = subprocess.Popen(
            [self.program, "replay"],
            env=dict(os.environ, LD_PRELOAD=self.library, **given),
            pass_fds=[write],
            stdin=subprocess.DEVNULL,
            stderr=subprocess.DEVNULL,
        )
        os.close(write)
        with os.fdopen(read, "rb") as file:
            while line := file.readline():
                _, _, calls, length = map(int, line.split())
                yield calls, file.read(length)
        run.wait()


@dataclass
class MemoryResult:
    """How many runs there were, what was wrong, and why none could be made."""

    runs: int
    faults: list[str]
    reason: str = ""


def _fail_in_turn(judge: Judge, program: str, session: Session, last: int) -> MemoryResult:
    """Each of the last allocations of a session fails alone."""
    with tempfile.TemporaryDirectory() as folder:
        failing = Failing(program, folder, session)
        whole = list(failing.runs(NOWHERE, NOWHERE))
        if not whole or whole[0][0] == 0:
            reason = "the program's allocations can't be made to fail (one with memory checks)"
            return MemoryResult(0, [], reason)
        result = MemoryResult(0, [])
        for _, output in failing.runs(max(1, whole[0][0] - last), whole[0][0]):
            result.runs += 1
            result.faults += _judged(judge, session, output)
        return result


def check_memory(judge: Judge, program: str) -> MemoryResult:
    """503: each allocation of a session of all operations fails alone.

    A deletion takes memory for the book only when the journal grows, so deletions are tried again behind more and
    more topics, until the journal grows just then.
    """
    result = _fail_in_turn(judge, program, session_of(judge, list(ORDER)), MOST_RUNS)
    if result.reason:
        return result
    for count in range(MOST_TOPICS):
        if all(judge.seen[it, 503] for it in ORDER):
            break
        names = [*ORDER[:7], *["createTopic"] * count, *DELETIONS]
        more = _fail_in_turn(judge, program, session_of(judge, names), LAST_RUNS)
        result.runs += more.runs
        result.faults += more.faults
    return result
