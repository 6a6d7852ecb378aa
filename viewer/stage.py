#!/usr/bin/python3
"""Starts the server, nginx before it, and the page, on the loopback.

stage.py PROGRAM [--port N] [--house FILE.ifc] is `view.sh` without its installing: it loads a model, prints the
address, and ends all of it at Ctrl-C. The tests use the class Stage.
"""
import argparse
import http.client
import json
import os
import shutil
import signal
import socket
import subprocess
import sys
import tempfile
import time
from collections.abc import Sequence
from pathlib import Path
from typing import Any

HERE = Path(__file__).resolve().parent
PAGE = HERE / "www"
PROJECT = "00000001-0000-8000-8000-000000000000"
SECOND = "00000002-0000-8000-8000-000000000000"
HOUSE_RULES = [{"a": "*", "b": "*", "distance": 2}]
RULES = [
    {"a": "IFCPIPESEGMENT", "b": "IFCSLAB", "kind": "ignore"},
    {"a": "IFCDUCTSEGMENT", "b": "IFCBEAM", "distance": 50},
    {"a": "IFCPIPESEGMENT", "b": "*", "distance": 30, "models": "other"},
    {"a": "*", "b": "*", "distance": 0, "models": "other"},
]


class Failure(Exception):
    """What went wrong, in one line that says what to do."""


def free_port() -> int:
    """A port that nothing listens at."""
    with socket.socket() as probe:
        probe.bind(("127.0.0.1", 0))
        return int(probe.getsockname()[1])


def is_open(port: int) -> bool:
    """Whether something listens at a port."""
    with socket.socket() as probe:
        probe.settimeout(1)
        return probe.connect_ex(("127.0.0.1", port)) == 0


class Stage:
    """A server, and nginx with the page before it. Each ends with `stop`."""

    def __init__(self, program: str, port: int = 0, projects: int = 1, page: Path = PAGE) -> None:
        if not os.access(program, os.X_OK):
            raise Failure(f"no program at {program}: run `make build` first")
        self.program = program
        self.page = page
        self.port = port or free_port()
        self.server_port = free_port()
        self.run = Path(tempfile.mkdtemp(prefix="viewer-"))
        self.started: list[subprocess.Popen[bytes]] = []
        if is_open(self.port):
            raise Failure(f"port {self.port} is taken: give another by --port N")
        address = f"127.0.0.1:{self.server_port}"
        words = f"--lanes 12 --workers 2 --projects {projects}".split()
        self.start([program, "serve", "--addr", address, *words], self.server_port)
        self.start(["nginx", "-p", str(self.run), "-c", self.front()], self.port)

    def front(self) -> str:
        """Writes nginx's file with this stage's ports and folders."""
        text = (HERE / "nginx.conf").read_text()
        values = {
            "RUN": self.run,
            "PAGE": self.page,
            "PORT": self.port,
            "SERVER": self.server_port,
        }
        for name, value in values.items():
            text = text.replace(f"@{name}@", str(value))
        if os.geteuid() == 0:
            text = "user root;\n" + text
        path = self.run / "nginx.conf"
        path.write_text(text)
        return str(path)

    def start(self, words: list[str], port: int) -> None:
        """Starts a program and waits until its port is open."""
        with open(self.run / "log", "ab") as log:
            process = subprocess.Popen(words, stdout=log, stderr=log, start_new_session=True)
        self.started.append(process)
        for _ in range(200):
            if is_open(port):
                return
            if process.poll() is not None:
                break
            time.sleep(0.05)
        said = (self.run / "log").read_text(errors="replace").strip()[-300:]
        self.stop()
        raise Failure(f"{words[0]} doesn't listen at port {port}: {said}")

    def call(self, method: str, path: str, body: bytes | None = None) -> dict[str, Any]:
        """One request to the server itself; the answer's JSON."""
        link = http.client.HTTPConnection("127.0.0.1", self.server_port, timeout=300)
        link.request(method, path, body)
        reply = link.getresponse()
        text = reply.read()
        link.close()
        if reply.status >= 300:
            raise Failure(f"{method} {path}: {text.decode()}")
        answer: dict[str, Any] = json.loads(text)
        return answer

    def put_rules(self, rules: Sequence[object], project: str = PROJECT) -> dict[str, Any]:
        """Sets the rules of a project, of the first if none is named."""
        body = json.dumps({"rules": rules}).encode()
        return self.call("PUT", f"/coord/1/projects/{project}/rules", body)

    def put_model(self, name: str, file: bytes, project: str = PROJECT) -> dict[str, Any]:
        """Puts a model into a project, into the first if none is named."""
        path = f"/coord/1/projects/{project}/models/{name}?grid=snap"
        return self.call("PUT", path, file)

    def generate(self, count: int, number: int) -> bytes:
        """A model that the program makes up."""
        words = ["generate", "--count", str(count), "--number", str(number), "--file"]
        return subprocess.run([self.program, *words], check=True, capture_output=True, timeout=300).stdout

    def stop(self) -> None:
        """Ends what was started, front first."""
        for process in reversed(self.started):
            if process.poll() is None:
                process.send_signal(signal.SIGTERM)
                try:
                    process.wait(5)
                except subprocess.TimeoutExpired:
                    process.kill()
                    process.wait()
        self.started = []
        shutil.rmtree(self.run, ignore_errors=True)


def convert(house: str) -> bytes | None:
    """The house as a file of the profile, where the converter is built."""
    converter = HERE.parent / "convert/target/release/ifc2grid"
    if not house or not os.access(house, os.R_OK) or not os.access(converter, os.X_OK):
        return None
    with tempfile.TemporaryDirectory() as folder:
        out = Path(folder) / "house.ifc"
        made = subprocess.run([str(converter), house, str(out)], capture_output=True, timeout=120)
        return out.read_bytes() if made.returncode in (0, 1) else None


def sample(what: str) -> bytes:
    """A file of the made building."""
    words = [sys.executable, str(HERE / "sample.py"), what]
    return subprocess.run(words, check=True, capture_output=True, timeout=60).stdout


def load(stage: Stage, house: bytes | None) -> None:
    """Two trades in three versions, so that the newest has new clashes; the house, if there is one, in project 2."""
    stage.put_rules(RULES)
    for name, what in (("arch", "arch"), ("mep", "mep"), ("mep", "mep-next")):
        stage.put_model(name, sample(what))
    print("project 1: a made building of two trades, whose newest version has new clashes", flush=True)
    if house:
        stage.put_rules(HOUSE_RULES, SECOND)
        stage.put_model("house", house, SECOND)
        print("project 2: a real house, by the converter", flush=True)


def main() -> int:
    """Starts, loads, prints the address and waits."""
    parser = argparse.ArgumentParser(description="the page for a look")
    parser.add_argument("program")
    parser.add_argument("--port", type=int, default=0)
    parser.add_argument("--house", default="")
    words = parser.parse_args()
    for name in (signal.SIGINT, signal.SIGTERM, signal.SIGHUP):
        signal.signal(name, signal.default_int_handler)
    stage = None
    try:
        stage = Stage(words.program, words.port, projects=2)
        load(stage, convert(words.house))
        print(f"http://127.0.0.1:{stage.port}/   (Ctrl-C ends it)", flush=True)
        while all(process.poll() is None for process in stage.started):
            time.sleep(0.5)
        raise Failure("the server or nginx has ended: see the lines above")
    except KeyboardInterrupt:
        return 0
    except Failure as failure:
        print(f"view: {failure}", file=sys.stderr)
        return 1
    finally:
        if stage:
            stage.stop()


if __name__ == "__main__":
    sys.exit(main())
