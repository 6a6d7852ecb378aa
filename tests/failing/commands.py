"""The rows of `replay`, `check` and `generate`: each of their calls fails."""

import os
import re
import subprocess
from collections import Counter

from tests import oracle
from tests.case_files import HERE, read
from tests.failing.session import PIPES, PROJECT, REPLAY, SESSION, healthy, judge_session
from tests.failing.tool import Run, Tool
from tests.support.checks import expect
from tests.support.http import MOMENT, body_in, replies_in, request

HOUSE = "by_another_program/check/check_independent_147_a_house"


def replay_reads(tool: Tool) -> str:
    """Each read of the session fails: all requests that had come whole are answered, and nothing
    else; status 4."""
    data, seen = b"".join(SESSION), []
    replies = healthy()
    ends = [sum(map(len, SESSION[:n])) for n in range(len(SESSION) + 1)]
    for most in [tool.chance.randint(20, 60), tool.chance.randint(200, 900)]:
        for error in (5, 4, 104):
            runs = tool.all(REPLAY, "read", data, most=most, error=error)
            expect(len(runs) == -(-len(data) // most) + 1, f"{len(runs)} reads of {most} bytes")
            for number, status, _, output in runs:
                came = (number - 1) * most
                wanted = b"".join(replies[: sum(end <= came for end in ends[1:])])
                expect(
                    (status, output) == (4, wanted),
                    f"read {number} of {most} bytes fails: {status} {output[-200:]!r}",
                )
        seen.append(f"{len(runs)} of {most} bytes")
    return "reads: " + ", ".join(seen) + ", by three errors"


def replay_writes(tool: Tool) -> str:
    """Each write of the session fails: all before it is written, and nothing else; status 5."""
    data, seen = b"".join(SESSION), []
    replies = healthy()
    for most in [tool.chance.randint(5, 20), tool.chance.randint(50, 200)]:
        pieces = [it[at : at + most] for it in replies for at in range(0, len(it), most)]
        for error in (5, 4, 32):
            runs = tool.all(REPLAY, "write", data, most=most, error=error)
            expect(len(runs) == len(pieces), f"{len(runs)} writes, wanted {len(pieces)}")
            for number, status, _, output in runs:
                wanted = b"".join(pieces[: number - 1])
                expect(
                    (status, output) == (5, wanted),
                    f"write {number} of {most} bytes fails: {status} {output[-200:]!r}",
                )
        seen.append(f"{len(runs)} of {most} bytes")
    return "writes: " + ", ".join(seen) + ", by three errors"


def replay_memory(tool: Tool) -> str:
    """Each allocation of the session is refused, alone, and with all after it."""
    data, seen = b"".join(SESSION), []
    run = tool.healthy(REPLAY, "memory", data)
    right = (run.status, run.output) == (0, b"".join(healthy()))
    expect(right, "the session is not answered as the reference says")
    for on in (None, 1):
        runs = tool.all(REPLAY, "memory", data, on=on)
        expect(len(runs) > 300, f"{len(runs)} allocations")
        judged: dict[tuple[int, bytes], str] = {}
        ends: Counter[str] = Counter()
        for number, status, _, output in runs:
            if (status, output) not in judged:
                judged[status, output] = judge_session(number, status, output)
            ends[judged[status, output]] += 1
        how = "and all after" if on else "alone"
        seen.append(
            f"{len(runs)} {how}: " + ", ".join(f"{n} {end}" for end, n in sorted(ends.items()))
        )
    return "allocations: " + "; ".join(seen)


def stored_run(tool: Tool) -> str:
    """The same of the stored run, with each of its reads and writes a byte long."""
    folder = os.path.join(HERE, "topics", "stored_run")
    data, wanted = read(folder, "stdin"), read(folder, "stdout")
    words = ["replay", "--at", str(MOMENT)]
    replies = replies_in(wanted)[0]
    first = data.index(b"GET ")
    reads, writes = tool.all(words, "read", data, most=1), tool.all(words, "write", data, most=1)
    counts = len(reads), len(writes)
    expect(counts == (len(data) + 1, len(wanted)), f"{counts[0]} reads, {counts[1]} writes")
    for number, status, _, output in reads:
        came = number - 1
        prefix = b"".join(replies[: (came >= first) + (came >= len(data))])
        expect((status, output) == (4, prefix), f"read {number} fails: {status} {output!r}")
    for number, status, _, output in writes:
        right = (status, output) == (5, wanted[: number - 1])
        expect(right, f"write {number} fails: {status} {output!r}")
    return f"{counts[0]} reads and {counts[1]} writes of a byte"


def judge_batch(words: list[str], kind: str, wanted: bytes, failed: int, run: Run) -> None:
    """Judges a run of a command that prints: it ends so with a prefix of the output, or as where
    nothing fails."""
    name = f"{' '.join(words)}: {kind} {run.number} fails"
    right = run.status == failed and wanted.startswith(run.output)
    right = right or kind == "memory" and (run.status, run.output) == (0, wanted)
    expect(right, f"{name}: {run.status} {run.output[-200:]!r}")
    expect(run.status != 4 or run.output == b"", f"{name}: {run.output!r} is printed")


def each_of(
    tool: Tool, words: list[str], wanted: bytes, folder: str, kinds: dict[str, int]
) -> list[str]:
    """Has the calls of these kinds fail in a command that prints; each kind with the status by
    which it ends. The counts."""
    counts = []
    for kind, failed in kinds.items():
        for on in (None, 1) if kind == "memory" else (None,):
            most = tool.chance.randint(7, 40) if kind in ("read", "write") else None
            runs = tool.all(words, kind, b"", cwd=folder, most=most, on=on)
            expect(runs, f"{' '.join(words)}: there is no {kind} that could fail")
            for run in runs:
                judge_batch(words, kind, wanted, failed, run)
            counts.append(f"{words[0]} {len(runs)} {kind}")
    return counts


def commands(tool: Tool) -> str:
    """Each opening, read, write and allocation of `check`, `generate` and `--help` fails."""
    folder = os.path.join(HERE, "check", "check_pipes")
    files, clashes = os.path.join(folder, "files"), read(folder, "stdout")
    to_file, to_counts = ["generate", "--count", "3", "--file"], ["generate", "--count", "3"]
    made = tool.healthy(to_file, "memory", b"")
    begins, ends = b"ISO-10303-21;", b"END-ISO-10303-21;\n"
    is_file = made.status == 0 and made.output.startswith(begins) and made.output.endswith(ends)
    expect(is_file, "no file is generated")
    counted = tool.healthy(to_counts, "memory", b"")
    prefix = b"elements 3\ntriangles 36\nclashes "
    expect(
        counted.status == 0 and counted.output.startswith(prefix), f"{counted.output!r} is printed"
    )
    check = ["check", "--rules", "r.json", "m=b.ifc"]
    counts = each_of(tool, check, clashes, files, {"open": 4, "read": 4, "write": 5, "memory": 6})
    counts += each_of(tool, to_file, made.output, files, {"write": 5, "memory": 6})
    counts += each_of(tool, to_counts, counted.output, files, {"memory": 6})
    text = read(os.path.join(HERE, "words", "help"), "stdout")
    counts += each_of(tool, ["--help"], text, files, {"write": 5, "memory": 6})
    return ", ".join(counts)


def replayed(tool: Tool, data: bytes) -> list[bytes]:
    """The replies to a session in which nothing fails."""
    words = [tool.program, "replay", "--at", str(MOMENT)]
    run = subprocess.run(words, input=data, stdout=subprocess.PIPE, timeout=60, check=False)
    expect(run.returncode == 0, f"status {run.returncode}")
    return replies_in(run.stdout)[0]


def cut_house(tool: Tool) -> int:
    """A file of a house cut at each length is refused by what its bytes end in, and makes no
    version; without its last line feed it is whole. At how many lengths."""
    house = read(os.path.join(HERE, HOUSE, "files"), "c.ifc")
    prefixes = [house[:n] for n in range(len(house) - 1)]
    data = b"".join(request("PUT", f"{PROJECT}/models/m", it) for it in prefixes)
    data += request("GET", f"{PROJECT}/versions/newest") + request(
        "PUT", f"{PROJECT}/models/m", house[:-1]
    )
    replies = replayed(tool, data)
    expect(len(replies) == len(prefixes) + 2, f"{len(replies)} replies")
    refused = re.compile(rb'HTTP/1\.1 422 [^\x00]*\r\n\r\n\{("at":\d+,)?"code":"U[123]"')
    for length, reply in enumerate(replies[:-2]):
        expect(refused.match(reply), f"cut at {length}: {reply!r}")
    empty = b'{"models":[],"newest":0,"per_mm":10,"rules":[],"version":0}'
    expect(replies[-2].endswith(empty), f"{replies[-2]!r}")
    expect(replies[-1].startswith(b"HTTP/1.1 201 "), f"{replies[-1]!r}")
    return len(prefixes)


def broken_uploads(tool: Tool) -> str:
    """A file of a house is cut at each length. Parentheses open too deep are refused, and so are
    201 rules, after which uploads go on."""
    count = cut_house(tool)
    faces, nested = b"TRIANGULATEDFACESET(#4,$,", b"(" * 32 + b"$" + b")" * 32
    deep = oracle.SMALL_FILE.replace(faces, b"TRIANGULATEDFACESET(#4," + nested + b",")
    rules = b'{"rules":[' + b",".join([b'{"a":"*","b":"*","distance":50}'] * 201) + b"]}"
    data = request("PUT", f"{PROJECT}/models/m", deep) + request("PUT", f"{PROJECT}/rules", rules)
    bodies = [
        body_in(it) for it in replayed(tool, data + request("PUT", f"{PROJECT}/models/m", PIPES))
    ]
    expect(len(bodies) == 3, f"{len(bodies)} replies")
    too_deep = rb'\{"at":\d+,"code":"U3","message":"U3 BadStatement"\}'
    expect(re.fullmatch(too_deep, bodies[0]), f"{bodies[0]!r}")
    expect(bodies[1] == b'{"code":"C2","count":201,"message":"C2 TooManyRules"}', f"{bodies[1]!r}")
    expect(bodies[2] == b'{"elements":4,"left":2,"triangles":4,"version":1}', f"{bodies[2]!r}")
    return f"{count} prefixes of a file"
