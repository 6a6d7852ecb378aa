"""The built program's server as a process of its own, at a port of its own."""

import os
import re
import signal
import socket
import subprocess
import time
from types import TracebackType
from typing import Self

from tests.support.checks import CheckFailed, expect

HOST = "127.0.0.1"


def free_port() -> int:
    with socket.socket() as it:
        it.bind((HOST, 0))
        port: int = it.getsockname()[1]
        return port


class Server:
    """The program, which serves at a port of its own. With `space` its address space has so many
    bytes, so that memory is refused beyond them. (The C library takes one heap then, and none for
    each thread, of which each takes 64 MiB.)
    """

    def __init__(
        self,
        program: str,
        lanes: int = 2,
        workers: int = 1,
        links: int = 0,
        projects: int = 1,
        space: int | None = None,
        environment: dict[str, str] | None = None,
        host: str = HOST,
    ) -> None:
        self.port = free_port()
        self.words = [program, "serve", "--addr", f"{host}:{self.port}", "--lanes", str(lanes)]
        self.words += [
            "--workers",
            str(workers),
            "--links",
            str(links),
            "--projects",
            str(projects),
        ]
        given = dict(os.environ, **(environment or {}))
        if space is not None:
            self.words = ["prlimit", f"--as={space}", *self.words]
            given["MALLOC_ARENA_MAX"] = "1"
        self.run = subprocess.Popen(
            self.words,
            env=given,
            stdin=subprocess.DEVNULL,
            stdout=subprocess.PIPE,
            stderr=subprocess.PIPE,
        )

    def __enter__(self) -> Self:
        return self

    def __exit__(
        self,
        kind: type[BaseException] | None,
        fault: BaseException | None,
        trace: TracebackType | None,
    ) -> None:
        if self.run.poll() is None:
            self.run.kill()
        self.run.wait()
        for pipe in (self.run.stdout, self.run.stderr):
            if pipe:
                pipe.close()

    def connect(self, patience: float = 30, source: str = HOST) -> socket.socket:
        """A connection from an address of this machine, once the server listens."""
        end = time.monotonic() + patience
        while True:
            it = socket.socket()
            try:
                if source != HOST:
                    it.bind((source, 0))
                it.connect((HOST, self.port))
                it.setsockopt(socket.IPPROTO_TCP, socket.TCP_NODELAY, 1)
                it.settimeout(60)
                return it
            except ConnectionRefusedError:
                it.close()
                expect(self.run.poll() is None, f"the server ended with {self.run.returncode}")
                expect(time.monotonic() < end, "the server does not listen")
                time.sleep(0.01)

    def status(self, patience: float = 60) -> int:
        """The exit status, once the server has ended by itself; nothing is written by one that
        served."""
        try:
            output, _ = self.run.communicate(timeout=patience)
        except subprocess.TimeoutExpired:
            raise CheckFailed("the server does not end") from None
        expect(output == b"", f"the server wrote {output[:80]!r}")
        return self.run.returncode

    def is_up(self) -> None:
        """Checks that the server hasn't ended."""
        expect(self.run.poll() is None, f"the server ended with {self.run.returncode}")

    def stop(self) -> None:
        """Checks that the server is there still, and ends by a signal."""
        self.is_up()
        self.run.send_signal(signal.SIGTERM)
        expect(self.status(20) == -signal.SIGTERM, f"status {self.run.returncode}")

    def spent(self) -> float:
        """The seconds of a processor that the server has taken so far."""
        with open(f"/proc/{self.run.pid}/stat", encoding="ascii") as it:
            ticks = it.read().rpartition(")")[2].split()[11:13]
        return sum(map(int, ticks)) / os.sysconf("SC_CLK_TCK")

    def memory(self, which: str = "VmHWM") -> int:
        """The most memory that the server has taken so far, or takes now (VmRSS), in bytes."""
        with open(f"/proc/{self.run.pid}/status", encoding="ascii") as file:
            found = re.search(which + r":\s+(\d+) kB", file.read())
        if found is None:
            raise CheckFailed(f"the system doesn't say the server's {which}")
        return int(found[1]) * 1024
