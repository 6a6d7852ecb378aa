"""Times the framing of bodies: python3 -m bench.bodies PROGRAM. One upload whose body is question
marks: no token of Part 21 begins so, so it is refused at its first byte, and nothing goes over the
rest but the framing. By length and in chunks of 8 KiB, of 8 to 32 MiB, read in pieces of 16 KiB;
and the same of up to 1 MiB in pieces of one byte. Prints the least of seven runs, and the speed by
what the larger body takes more.
"""

import subprocess
import sys
import tempfile
import time
from collections.abc import Callable

from bench.timing import replay_words, request
from tests.support.checks import arguments
from tests.support.http import coord_of
from tests.support.programs import built

TARGET, MIB, RUNS = f"{coord_of()}/models/m", 1 << 20, 7


def by_length(size: int) -> bytes:
    return request("PUT", TARGET, b"?" * size)


def in_chunks(size: int, most: int = 8192) -> bytes:
    chunk = f"{most:x}\r\n".encode() + b"?" * most + b"\r\n"
    head = f"PUT {TARGET} HTTP/1.1\r\nHost: h\r\nTransfer-Encoding: chunked\r\n\r\n".encode()
    return head + chunk * (size // most) + b"0\r\n\r\n"


WHOLE: dict[str, Callable[[int], bytes]] = {"by length": by_length, "in chunks of 8 KiB": in_chunks}


def check(output: bytes, status: int) -> None:
    """Ends the script where the body was answered otherwise."""
    if status != 0 or b'{"code":"U1"' not in output:
        sys.exit(f"another answer: {status} {output[:200]!r}")


def seconds(program: str, data: bytes) -> float:
    """The least seconds of several runs, the input in a file."""
    least = float("inf")
    with tempfile.TemporaryFile() as file:
        file.write(data)
        for _ in range(RUNS):
            file.seek(0)
            began = time.perf_counter()
            run = subprocess.run(
                replay_words(program), stdin=file, stdout=subprocess.PIPE, check=False
            )
            least = min(least, time.perf_counter() - began)
            check(run.stdout, run.returncode)
    return least


def in_single_bytes(program: str, data: bytes) -> float:
    """The seconds of one run, the input through a pipe byte by byte."""
    began, pipe = time.perf_counter(), subprocess.PIPE
    with subprocess.Popen(replay_words(program), stdin=pipe, stdout=pipe, bufsize=0) as run:
        assert run.stdin and run.stdout
        for at in range(len(data)):
            run.stdin.write(data[at : at + 1])
        run.stdin.close()
        answer = run.stdout.read()
    check(answer, run.returncode)
    return time.perf_counter() - began


def main() -> int:
    program = built(arguments(__doc__).parse_args().program)
    for name, make in WHOLE.items():
        took = {size: seconds(program, make(size * MIB)) for size in (8, 16, 32)}
        speed = 16 * MIB / (took[32] - took[16]) / 1e9
        print(
            f"{name}: "
            + ", ".join(f"{size} MiB {1000 * t:.1f} ms" for size, t in took.items())
            + f"; {speed:.2f} GB/s"
        )
    for name, most in (("by length", None), ("in chunks of 8 bytes", 8)):
        sizes = (MIB // 4, MIB // 2, MIB)
        each = [
            in_single_bytes(program, in_chunks(size, most) if most else by_length(size))
            for size in sizes
        ]
        print(
            f"{name}, in single bytes: "
            + ", ".join(f"{t:.2f} s" for t in each)
            + " for 1/4, 1/2 and 1 MiB"
        )
    return 0


if __name__ == "__main__":
    sys.exit(main())
