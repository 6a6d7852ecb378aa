"""Which pairs of an operation and a status were seen, and which codes."""

from __future__ import annotations

from dataclasses import dataclass

from .judge import Judge

# Codes that no part of the check reaches, with the reason. Their status is seen by other codes.
UNREACHED = {
    "K6": "40,000,001 triangles or 1 GiB of texts would take some GB of memory",
}
OF_LISTS = ("B5", "B6", "B9", "K7")


def pairs_of(judge: Judge) -> set[tuple[str, int]]:
    """All pairs that are described."""
    return {(it.name, status) for it in judge.document.operations for status in it.responses}


@dataclass(frozen=True)
class Excuses:
    """Why statuses and codes can't be had of this program."""

    statuses: dict[int, str]
    codes: dict[str, str]


def excuses(memory: str, journal: str, lists: str) -> Excuses:
    """The excuses, by the reasons why three parts of the check weren't made, where there are any."""
    statuses = {503: memory, 507: journal}
    codes = {**UNREACHED, "M1": memory, "K9": journal, **dict.fromkeys(OF_LISTS, lists)}
    return Excuses(
        {it: reason for it, reason in statuses.items() if reason},
        {it: reason for it, reason in codes.items() if reason},
    )


def check_coverage(judge: Judge, excused: Excuses) -> tuple[str, list[str]]:
    """A line of counts, and each pair or code that could be had but wasn't seen."""
    wanted, seen = pairs_of(judge), set(judge.seen)
    others = {("other requests", status) for status in judge.document.others}
    missing = sorted((wanted | others) - seen)
    faults = [
        f"{name} {status} was never seen"
        for name, status in missing
        if status not in excused.statuses
    ]
    codes = set(judge.document.errors)
    unseen = codes - set(judge.codes)
    unexcused = sorted(unseen - set(excused.codes))
    faults += [f"the code {code} was never seen" for code in unexcused]
    note = (
        f"{len(wanted & seen)} of {len(wanted)} pairs of an operation and a status, "
        f"{len(codes - unseen)} of {len(codes)} codes, in {judge.count} responses"
    )
    return note, faults


def print_table(judge: Judge, excused: Excuses) -> None:
    """A line for each operation: its statuses with how often each was seen."""
    for operation in judge.document.operations:
        counts = [f"{it}:{judge.seen[operation.name, it]}" for it in sorted(operation.responses)]
        print(f"    {operation.name:20} {' '.join(counts)}")
    for status, reason in sorted(excused.statuses.items()):
        print(f"    the status {status} can't be had of each operation: {reason}")
    for code, reason in sorted(excused.codes.items()):
        if code not in judge.codes:
            print(f"    the code {code} can't be had: {reason}")
