"""How long runs of the program take."""

import resource
import subprocess
import time
from collections.abc import Callable

from tests.support.http import Exchange


def replay_words(program: str, *more: str) -> list[str]:
    return [program, "replay", "--at", "0", *more]


def request(method: str, target: str, body: str | bytes = b"") -> bytes:
    return Exchange(method, target, body.encode() if isinstance(body, str) else body).bytes_of()


def least(words: list[str], data: bytes, runs: int) -> tuple[float, bytes]:
    """The least seconds of so many runs, and the output."""
    best, output = float("inf"), b""
    for _ in range(runs):
        start = time.perf_counter()
        output = subprocess.run(words, input=data, stdout=subprocess.PIPE, check=True).stdout
        best = min(best, time.perf_counter() - start)
    return best, output


def of_children() -> float:
    """The seconds of a processor that the programs run so far took."""
    used = resource.getrusage(resource.RUSAGE_CHILDREN)
    return used.ru_utime + used.ru_stime


def least_of_processor(
    words: list[str], data: bytes, runs: int, check: Callable[[bytes], None]
) -> float:
    """The least seconds of a processor of so many runs, the output of each of which is checked."""
    best = float("inf")
    for _ in range(runs):
        start = of_children()
        output = subprocess.run(words, input=data, stdout=subprocess.PIPE, check=True).stdout
        best = min(best, of_children() - start)
        check(output)
    return best
