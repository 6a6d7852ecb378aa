"""What one thread answers: the requests of all connections, in the order of the turns that their
replies print, are replayed over one connection, and each reply has to be the same but for its turn
and for the dates that the server took from the clock. Turns differ, those of a connection rise, and
a request that began after another's reply has the later turn; but clashes that a connection was
answered before are answered again with the turn that was printed last there. Work on clashes goes
on beside the connections, so of what is left to be checked only the bounds are compared."""

import json
import re
import subprocess
from dataclasses import replace

from tests.support.checks import expect
from tests.support.http import (
    MOMENT,
    Exchange,
    Response,
    left_of,
    take_response,
    without_dates,
    without_left,
)

CLASHES = re.compile(r"/coord/1/projects/([^/]+)/versions/(\d+|newest)/clashes(\?.*)?$")
Log = list[Exchange]


def replay(program: str, projects: int, words: list[str], requests: Log) -> list[Response]:
    """The replies of one thread to these requests, in their order. They give no turn there, since
    its turns are others."""
    data = b"".join(replace(it, given=None).bytes_of() for it in requests)
    command = [program, "replay", "--at", str(MOMENT), "--projects", str(projects), *words]
    run = subprocess.run(command, input=data, stdout=subprocess.PIPE, check=False)
    expect(run.returncode == 0, f"the replay ended with {run.returncode}")
    replies, rest = [], run.stdout
    while rest:
        got = take_response(rest)
        if got is None:
            break
        replies.append(got)
        rest = got.rest
    expect(not rest, "the replay's output ends within a reply")
    expect(len(replies) == len(requests), f"{len(replies)} replies to {len(requests)} requests")
    return replies


def find_shelved(log: Log) -> None:
    """Which replies of a connection are of clashes that it was answered before, to requests that
    give no turn above the one that was printed last: these print that one, and the others a later
    one."""
    printed, shelf = 0, set()
    for it in log:
        if it.turn is None:
            continue
        asked = CLASHES.match(it.target) if it.method == "GET" and it.status == 200 else None
        is_kept = asked is not None and (asked[1], asked[2]) in shelf
        it.shelved = is_kept and (it.given or 0) <= printed
        if it.shelved:
            expect(
                it.turn == printed,
                f"a shelved reply prints turn {it.turn}, and {printed} was printed last",
            )
        else:
            expect(it.turn > printed, f"turn {it.turn} is printed after {printed}")
        if asked:
            shelf.add((asked[1], str(json.loads(it.reply)["version"])))
        printed = it.turn


def check_turns(logs: list[Log]) -> None:
    """Turns differ, those of a connection rise, and a later request has a later turn."""
    for log in logs:
        find_shelved(log)
    taken = [(it.turn, it) for log in logs for it in log if it.turn is not None and not it.shelved]
    expect(len({turn for turn, _ in taken}) == len(taken), "two replies print one turn")
    by_start = sorted(taken, key=lambda pair: pair[1].sent)
    by_end = sorted(taken, key=lambda pair: pair[1].came)
    top, at = 0, 0
    for turn, it in by_start:
        while at < len(by_end) and by_end[at][1].came < it.sent:
            top = max(top, by_end[at][0])
            at += 1
        expect(turn > top, f"turn {turn} was asked for after the reply of turn {top}")


def check_reply(it: Exchange, done: Response, undone: Response) -> None:
    """A reply is one thread's; where it says how many buckets are left, no fewer than where all
    were checked after each answer, and no more than where none was."""
    text = f"turn {it.turn} {it.method} {it.target}: {it.status} {it.reply[:200]!r}"
    text += f", one thread {done.status} {done.body[:200]!r}"
    expect(it.status == done.status, text)
    if b'"left":' in done.body and it.status in (200, 201):
        expect(
            without_left(without_dates(it.reply)) == without_left(without_dates(done.body)), text
        )
        least, left, most = left_of(done.body), left_of(it.reply), left_of(undone.body)
        expect(
            least is not None and left is not None and most is not None and least <= left <= most,
            text,
        )
    else:
        expect(without_dates(it.reply) == without_dates(done.body), text)


def check_replies(program: str, projects: int, logs: list[Log]) -> tuple[int, int]:
    """Each reply is one thread's at its turn. How many were compared, and how many said that
    clashes are pending."""
    check_turns(logs)
    timed = [(it.turn, it.shelved, it) for log in logs for it in log if it.turn is not None]
    asked = [it for _, _, it in sorted(timed, key=lambda row: row[:2])]
    pending = [it for it in asked if it.status == 202]
    for it in pending:
        holds = left_of(it.reply) and set(json.loads(it.reply)) == {"left", "version"}
        expect(holds, f"turn {it.turn}: {it.reply!r}")
    asked = [it for it in asked if it.status != 202]
    asked += [it for log in logs for it in log if it.turn is None and not it.close]
    done = replay(program, projects, [], asked)
    undone = replay(program, projects, ["--buckets", "0"], asked)
    for it, with_work, without_work in zip(asked, done, undone):
        check_reply(it, with_work, without_work)
    return len(asked), len(pending)


def compared(program: str, projects: int, logs: list[Log]) -> str:
    """The same as a text for a row."""
    return "%d replies compared, %d pending" % check_replies(program, projects, logs)
