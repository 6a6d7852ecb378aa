"""The built program as a server, on a free port of 127.0.0.1."""

from __future__ import annotations

import socket
import subprocess
import time

HOST = "127.0.0.1"
START_SECONDS = 30


def free_port() -> int:
    """A port that nobody listens at."""
    with socket.socket() as it:
        it.bind((HOST, 0))
        return int(it.getsockname()[1])


class Server:
    """A started program, which is stopped at the end."""

    def __init__(self, program: str, lanes: int = 4, workers: int = 1, projects: int = 2) -> None:
        self.port = free_port()
        words = {"lanes": lanes, "workers": workers, "projects": projects}
        options = [it for name, count in words.items() for it in (f"--{name}", str(count))]
        self._run = subprocess.Popen(
            [program, "serve", "--addr", f"{HOST}:{self.port}", *options],
            stdin=subprocess.DEVNULL,
            stdout=subprocess.DEVNULL,
        )

    def __enter__(self) -> Server:
        end = time.monotonic() + START_SECONDS
        while time.monotonic() < end and self._run.poll() is None:
            try:
                socket.create_connection((HOST, self.port), timeout=1).close()
                return self
            except OSError:
                time.sleep(0.02)
        status = self._run.poll()
        self.stop()
        ended = f"ended with {status}" if status is not None else "is silent"
        raise OSError(f"bim_server serve {ended} at port {self.port}: build it, or give its path")

    def __exit__(self, *_: object) -> None:
        self.stop()

    def runs(self) -> bool:
        """Whether it is still there."""
        return self._run.poll() is None

    def stop(self) -> None:
        """Stops it, and waits until it is gone."""
        if self._run.poll() is None:
            self._run.kill()
        self._run.wait()
