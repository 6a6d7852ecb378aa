#!/usr/bin/env python3
"""Builds the program without any proof, leaves it at out/try/bim_server, replays the stored run.

    python3 -m tools.try_program

The program is of the same sources as the proved one, compiled with checks: it stops at an index out
of bounds, a bad access or an overflow, and takes 10 times as long for a small request and up to 200
times for an upload. It shows how the server behaves, and nothing of what is proved. The status is 0
if the stored run prints what is stored.
"""

import os
import shutil
import signal
import socket
import subprocess
import sys
import tempfile
import time
from pathlib import Path

TOP = Path(__file__).resolve().parent.parent
CRATE = TOP / "crates" / "bim_server"
PROGRAM = TOP / "out" / "try" / "bim_server"
STORED_RUN = TOP / "cases" / "topics" / "stored_run"


def free_port() -> int:
    """Returns a port of the loopback that nobody listens at."""
    with socket.socket() as it:
        it.bind(("127.0.0.1", 0))
        port: int = it.getsockname()[1]
        return port


def is_served(port: int) -> bool:
    """Returns whether something listens at the port of the loopback."""
    with socket.socket() as it:
        it.settimeout(1)
        return it.connect_ex(("127.0.0.1", port)) == 0


def keep(built: Path) -> None:
    """Copies the program to its place, renamed when it is whole."""
    PROGRAM.parent.mkdir(parents=True, exist_ok=True)
    part = PROGRAM.with_name(f"bim_server.{os.getpid()}")
    shutil.copyfile(built, part)
    part.chmod(0o755)
    part.rename(PROGRAM)


def show(begun: float) -> None:
    """Says on a terminal how long the build has taken so far."""
    if sys.stderr.isatty():
        print(
            f"\r  building: {time.monotonic() - begun:.0f} s of some 150",
            end="",
            file=sys.stderr,
            flush=True,
        )


def build(begun: float) -> str:
    """Builds the program, and returns why that failed, or nothing.

    The compiler removes the program when its run has ended, so it is run as a server and copied
    while it runs.
    """
    with tempfile.TemporaryDirectory(
        prefix="yulfrets-try-"
    ) as room, tempfile.TemporaryFile() as said:
        port = free_port()
        words = [
            "rt",
            "try",
            "--steps",
            "1",
            "--seconds",
            "60",
            "--",
            "serve",
            "--addr",
            f"127.0.0.1:{port}",
        ]
        tool = subprocess.Popen(
            words,
            cwd=CRATE,
            env={**os.environ, "TMPDIR": room},
            stdin=subprocess.DEVNULL,
            stdout=said,
            stderr=said,
        )
        try:
            while tool.poll() is None:
                if is_served(port):
                    keep(next(Path(room).glob("*/*/program")))
                    return ""
                show(begun)
                time.sleep(0.2)
        finally:
            tool.send_signal(signal.SIGTERM)
            tool.wait()
        said.seek(0)
        return said.read().decode(errors="replace")[-3000:]


def replays_the_stored_run() -> bool:
    """Replays the stored run over the program, prints what it writes, and returns whether that is
    what is stored."""
    words = (STORED_RUN / "args").read_text().split()
    with open(STORED_RUN / "stdin", "rb") as given:
        ran = subprocess.run([PROGRAM, *words], stdin=given, stdout=subprocess.PIPE, timeout=60)
    sys.stdout.buffer.write(ran.stdout + b"\n")
    return ran.returncode == 0 and ran.stdout == (STORED_RUN / "stdout").read_bytes()


def main() -> int:
    begun = time.monotonic()
    print(
        "make try: an unproved build: no contract was checked, so it promises nothing",
        file=sys.stderr,
    )
    failed = build(begun)
    if sys.stderr.isatty():
        print(file=sys.stderr)
    if failed:
        print(
            f"{failed}\nmake try: the program was not built; what the compiler said is above",
            file=sys.stderr,
        )
        return 1
    if not replays_the_stored_run():
        print(
            "make try: the stored run did not print what cases/topics/stored_run/stdout has",
            file=sys.stderr,
        )
        return 1
    print(
        f"make try: built in {time.monotonic() - begun:.0f} s: {PROGRAM.relative_to(TOP)}",
        file=sys.stderr,
    )
    return 0


if __name__ == "__main__":
    sys.exit(main())
