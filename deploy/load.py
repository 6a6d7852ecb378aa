#!/usr/bin/env python3
"""Requests a second and waiting times, straight and through the front.

    load.py PROGRAM [--seconds 4]

By wrk (Debian's package): small replies (a project) and large ones (a version of 2,000 elements),
for 8, 18 and 32 lanes; and what nginx answers without the server. Straight there is one connection
fewer than lanes; through the front 8, 32 and 100. Bounds of requests are lifted. The load of the
machine stands in the first line.
"""

from __future__ import annotations

import argparse
import os
import re
import subprocess
import sys
import tempfile
from dataclasses import dataclass
from pathlib import Path

sys.path.insert(0, str(Path(__file__).resolve().parent / "checks"))

# pylint: disable=wrong-import-position
from asking import BCF, COORD, ask, basic  # noqa: E402
from front import HOST, Front  # noqa: E402

LIFTED = {
    "nginx/http.conf": [("rate=400r/s", "rate=1000000r/s")],
    "nginx/proxy.conf": [
        ("burst=1000", "burst=1000000"),
        ("yulfrets_connections 64", "yulfrets_connections 9999"),
    ],
}
SMALL, LARGE = BCF, f"{COORD}/versions/newest"
# what nginx answers by itself once it knows the user: the front's own cost
ALONE = "/bcf/3.0/current-user"


@dataclass
class Pace:
    """What wrk saw: requests a second, the median and the 99th percentile in ms, failures."""

    rate: float
    median: float
    tail: float
    failed: int


def milliseconds(text: str) -> float:
    """A time of wrk: 850.00us, 1.20ms, 2.01s."""
    number, unit = re.fullmatch(r"([0-9.]+)(us|ms|s|m)", text).groups()  # type: ignore[union-attr]
    return float(number) * {"us": 0.001, "ms": 1.0, "s": 1000.0, "m": 60000.0}[unit]


def measure(address: str, target: str, connections: int, seconds: float) -> Pace:
    """One run of wrk with one thread."""
    fields = [f"Host: {HOST}", f"Authorization: {basic('eva')['Authorization']}"]
    words = ["wrk", "-t1", f"-c{connections}", f"-d{seconds:.0f}s", "--latency", "--timeout", "10s"]
    for each in fields:
        words += ["-H", each]
    done = subprocess.run([*words, address + target], capture_output=True, text=True, check=True)
    text = done.stdout
    seen = dict(re.findall(r"^\s+(50|99)%\s+([0-9.]+(?:us|ms|s|m))\s*$", text, re.M))
    if len(seen) != 2:
        sys.exit(f"load.py: wrk says no times: {text}")
    rate = float(re.search(r"Requests/sec:\s+([0-9.]+)", text).group(1))  # type: ignore[union-attr]
    failed = sum(int(each) for each in re.findall(r"Non-2xx or 3xx responses: (\d+)", text))
    failed += sum(int(each) for each in re.findall(r"timeout (\d+)", text))
    return Pace(rate, milliseconds(seen["50"]), milliseconds(seen["99"]), failed)


def fill(front: Front, elements: int) -> int:
    """Uploads a generated model; the size of the version's reply in bytes."""
    words = [front.program, "generate", "--count", str(elements), "--file"]
    model = subprocess.run(words, capture_output=True, check=True).stdout
    answer = ask(front, "PUT", f"{COORD}/models/m", model, timeout="300")
    if answer.status != 201:
        sys.exit(f"load.py: the model is answered {answer.said()}")
    return len(ask(front, "GET", LARGE, timeout="120").body)


def lines_of(program: str, lanes: int, seconds: float, elements: int) -> None:
    """All runs for so many lanes, a line each."""
    most = (lanes - 2) // 2
    edits = {
        **LIFTED,
        "haproxy/queue.cfg": [("gt 2000", "gt 1000000000"), ("maxconn 8 ", f"maxconn {most} ")],
    }
    edits["haproxy/queue.cfg"].append(("pool-max-conn 8", f"pool-max-conn {most}"))
    with tempfile.TemporaryDirectory(prefix="yulfrets-load-", dir="/tmp") as folder:
        Path(folder).chmod(0o755)
        with Front(program, Path(folder), edits=edits, lanes=lanes, workers=2) as front:
            size = fill(front, elements)
            straight = f"http://127.0.0.1:{front.ports['server']}"
            behind = f"https://127.0.0.1:{front.ports['tls']}"
            runs = [("nginx, TLS", behind, count) for count in (8, 32, 100)]
            show(lanes, most, "without the server", ALONE, runs, seconds)
            for kind, target in (("small", SMALL), (f"large ({size} bytes)", LARGE)):
                front.stop_part("queue")
                runs = [("straight", straight, lanes - 1)]
                show(lanes, most, kind, target, runs, seconds)
                front.start_queue()
                runs = [("front, TLS", behind, count) for count in (8, 32, 100)]
                show(lanes, most, kind, target, runs, seconds)


def show(
    lanes: int, most: int, kind: str, target: str, runs: list[tuple[str, str, int]], seconds: float
) -> None:
    """Measures and prints a line for each run."""
    for way, address, connections in runs:
        pace = measure(address, target, connections, seconds)
        print(
            f"lanes {lanes:2} maxconn {most:2}  {kind:22} {way:10} {connections:3} connections:"
            f" {pace.rate:8.0f} requests/s, median {pace.median:7.2f} ms,"
            f" 99% {pace.tail:7.2f} ms, failed {pace.failed}",
            flush=True,
        )


def main() -> None:
    """Reads the words and runs all."""
    words = argparse.ArgumentParser(
        description=__doc__, formatter_class=argparse.RawDescriptionHelpFormatter
    )
    words.add_argument("program")
    words.add_argument("--seconds", type=float, default=4)
    words.add_argument("--elements", type=int, default=2000)
    given = words.parse_args()
    print(f"load {os.getloadavg()[0]:.1f}, {os.cpu_count()} processors, {given.program}")
    for lanes in (8, 18, 32):
        lines_of(given.program, lanes, given.seconds, given.elements)


if __name__ == "__main__":
    main()
