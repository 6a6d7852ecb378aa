"""A server of its own for each test, and the command run against it."""

from __future__ import annotations

import contextlib
import io
import json
import os
import socket
import subprocess
import sys
import time
from collections.abc import Iterator
from dataclasses import dataclass, field
from pathlib import Path
from typing import Any
from unittest import mock

import pytest

CLIENT = Path(__file__).resolve().parent.parent
COMMAND = CLIENT / "bin" / "yulfrets"
sys.path.insert(0, str(CLIENT))

PROJECTS = [
    "00000001-0000-8000-8000-000000000000",
    "00000002-0000-8000-8000-000000000000",
]


def free_port() -> int:
    """A port of 127.0.0.1 that nobody listens at."""
    with socket.socket() as probe:
        probe.bind(("127.0.0.1", 0))
        return int(probe.getsockname()[1])


@dataclass
class Result:
    """What a run of the command gave."""

    status: int
    out: str
    err: str

    @property
    def json(self) -> Any:
        """Its standard output as JSON."""
        return json.loads(self.out)

    @property
    def fault(self) -> Any:
        """The failure that it printed as JSON."""
        return json.loads(self.err.strip().splitlines()[-1])["error"]


@dataclass
class Runner:
    """The command with an environment and a folder of its own."""

    folder: Path
    environment: dict[str, str] = field(default_factory=dict)

    def full(self) -> dict[str, str]:
        """The whole environment; nothing of the tester's own settings."""
        kept = {k: v for k, v in os.environ.items() if not k.startswith(("YULFRETS_", "REQUESTS_"))}
        kept = {k: v for k, v in kept.items() if "proxy" not in k.lower()}
        return kept | {"PYTHONUTF8": "1", "HOME": str(self.folder)} | self.environment

    def __call__(self, *words: str | Path, **more: str) -> Result:
        """Runs the command within this process, as `main` does, which saves its start."""
        from yulfrets.__main__ import main

        out, err, before = io.StringIO(), io.StringIO(), Path.cwd()
        os.chdir(self.folder)
        try:
            with mock.patch.dict(os.environ, self.full() | more, clear=True):
                with contextlib.redirect_stdout(out), contextlib.redirect_stderr(err):
                    status = int(main([str(word) for word in words]))
        except SystemExit as end:
            status = int(end.code or 0)
        finally:
            os.chdir(before)
        return Result(status, out.getvalue(), err.getvalue())

    def process(self, *words: str | Path, **more: str) -> Result:
        """Runs the command as a process of its own."""
        done = subprocess.run(
            [sys.executable, "-B", str(COMMAND), *map(str, words)],
            cwd=self.folder,
            env=self.full() | more,
            stdin=subprocess.DEVNULL,
            capture_output=True,
            timeout=60,
            check=False,
        )
        return Result(done.returncode, done.stdout.decode(), done.stderr.decode())

    def ok(self, *words: str | Path, **more: str) -> Result:
        """The same for a run that has to end well."""
        done = self(*words, **more)
        assert done.status == 0, (words, done)
        return done

    def file(self, name: str, text: str) -> Path:
        """A new file in the folder."""
        path = self.folder / name
        path.write_text(text, "utf-8")
        return path


class Server:
    """The program that is tested against, until it is stopped."""

    def __init__(self, program: str, lanes: int = 4) -> None:
        for _ in range(5):
            self.port = free_port()
            address = f"127.0.0.1:{self.port}"
            words = ["--addr", address, "--lanes", str(lanes), "--projects", "2"]
            self.process = subprocess.Popen(
                [program, "serve", *words],
                stdin=subprocess.DEVNULL,
                stdout=subprocess.DEVNULL,
                stderr=subprocess.DEVNULL,
            )
            if self.answers():
                return
            self.stop()
        raise RuntimeError(f"{program} doesn't serve")

    @property
    def url(self) -> str:
        """Its address."""
        return f"http://127.0.0.1:{self.port}"

    def answers(self) -> bool:
        """Whether it takes connections, within ten seconds."""
        end = time.monotonic() + 10
        while time.monotonic() < end and self.process.poll() is None:
            try:
                socket.create_connection(("127.0.0.1", self.port), 1).close()
                return True
            except OSError:
                time.sleep(0.02)
        return False

    def stop(self) -> None:
        """Ends it."""
        if self.process.poll() is None:
            self.process.kill()
        self.process.wait(10)


@pytest.fixture
def program() -> str:
    """The server's program, from the environment."""
    found = os.environ.get("YULFRETS_TEST_SERVER")
    assert found, "YULFRETS_TEST_SERVER has to name the server's program"
    return found


@pytest.fixture
def server(program: str) -> Iterator[Server]:
    """A server of this test alone."""
    made = Server(program)
    yield made
    made.stop()


@pytest.fixture
def bare(tmp_path: Path) -> Runner:
    """The command without a server."""
    return Runner(tmp_path)


@pytest.fixture
def run(server: Server, tmp_path: Path) -> Runner:
    """The command with this test's server."""
    return Runner(tmp_path, {"YULFRETS_URL": server.url})
