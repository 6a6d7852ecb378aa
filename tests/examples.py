"""Shows that the examples of README.md and docs/API.md print what is there.

python3 -m tests.examples PROGRAM

An example is an indented block. Its commands are the lines behind `$ `, or a block that begins with
printf, up to the first empty line. What follows a command is what it prints. A server of the
program listens at a free port in place of 8080. Dates of the system's clock may differ.
"""

import argparse
import re
import socket
import subprocess
import sys
import tempfile
import time
from dataclasses import dataclass, field
from pathlib import Path

TOP = Path(__file__).resolve().parent.parent
PAGES = ("README.md", "docs/API.md")
DATE = re.compile(r"\d{4}-\d\d-\d\dT\d\d:\d\d:\d\dZ")
MARK = "---- the next command ----"
# asks again while clashes are still looked for, and ends each answer's line
CURL = """curl() {
  local out
  for _ in $(seq 100); do
    out=$(command curl --silent --max-time 60 "$@")
    case $out in '{"left":'*) sleep 0.1 ;; *) break ;; esac
  done
  printf '%s\\n' "$out"
}
"""


@dataclass
class Example:
    """A command of a page, and what the page says that it prints."""

    command: str
    wanted: list[str] = field(default_factory=list)


def blocks_of(text: str) -> list[list[str]]:
    """The indented blocks of a page, an empty line within one among them."""
    found: list[list[str]] = []
    inside = False
    for line in text.split("\n"):
        if line.startswith("    "):
            if not inside:
                found.append([])
            found[-1].append(line[4:])
            inside = True
        elif line.strip():
            inside = False
        elif inside:
            found[-1].append("")
    return found


def examples_of(text: str) -> list[Example]:
    """The commands of a page that print something or change the shell, in their order."""
    found: list[Example] = []
    for block in blocks_of(text):
        lines = "\n".join(block).strip("\n").split("\n")
        if lines[0].startswith("printf"):
            end = lines.index("")
            found.append(Example("\n".join(lines[:end]), lines[end + 1 :]))
            continue
        for line in lines if lines[0].startswith("$ ") else []:
            if line.startswith("$ "):
                found.append(Example(line[2:]))
            else:
                found[-1].wanted.append(line)
    return [it for it in found if not it.command.startswith("bim_server serve")]


def free_port() -> int:
    """A port of the loopback that nobody listens at."""
    with socket.socket() as it:
        it.bind(("127.0.0.1", 0))
        return int(it.getsockname()[1])


def wait_for(port: int) -> None:
    """Waits until a server listens there, ten seconds at most."""
    for _ in range(100):
        with socket.socket() as it:
            if it.connect_ex(("127.0.0.1", port)) == 0:
                return
        time.sleep(0.1)
    raise SystemExit("the server doesn't listen after ten seconds")


def printed(program: Path, examples: list[Example], port: int) -> list[list[str]]:
    """What each command prints, all of them in one shell, line by line."""
    parts = "".join(f"{it.command}\necho '{MARK}'\n" for it in examples)
    with tempfile.TemporaryDirectory() as folder:
        (Path(folder) / "bim_server").symlink_to(program)
        script = f"PATH={folder}:$PATH\n{CURL}{parts}".replace(
            "127.0.0.1:8080", f"127.0.0.1:{port}"
        )
        done = subprocess.run(
            ["bash", "-c", script],
            cwd=TOP,
            capture_output=True,
            text=True,
            timeout=300,
            check=False,
        )
    outputs = done.stdout.replace("\r\n", "\n").split(f"{MARK}\n")
    return [it.strip("\n").split("\n") if it.strip("\n") else [] for it in outputs[: len(examples)]]


def differences(program: Path, page: str, port: int) -> tuple[int, list[str]]:
    """How many commands of a page were run, and those that print something else."""
    examples = examples_of((TOP / page).read_text(encoding="utf-8"))
    found = []
    for example, lines in zip(examples, printed(program, examples, port), strict=True):
        if [DATE.sub("DATE", it) for it in lines] != [
            DATE.sub("DATE", it) for it in example.wanted
        ]:
            found.append(
                f"{page}: {example.command}\n    wanted   {example.wanted}\n    printed  {lines}"
            )
    return len(examples), found


def main() -> int:
    """Runs the examples of both pages."""
    parser = argparse.ArgumentParser(description="Runs the examples of README.md and docs/API.md.")
    parser.add_argument("program", type=Path, metavar="PROGRAM")
    program = parser.parse_args().program.resolve()
    if not program.is_file():
        print(f"{program} isn't there: make build, or make try", file=sys.stderr)
        return 1
    port, count = free_port(), 0
    found: list[str] = []
    words = [program, "serve", "--addr", f"127.0.0.1:{port}"]
    with subprocess.Popen(words, stdout=subprocess.DEVNULL) as server:
        try:
            wait_for(port)
            for page in PAGES:
                ran, differing = differences(program, page, port)
                count, found = count + ran, found + differing
        finally:
            server.terminate()
    for difference in found:
        print(difference)
    print(f"{count} examples, {len(found)} differ")
    return 1 if found or count == 0 else 0


if __name__ == "__main__":
    sys.exit(main())
