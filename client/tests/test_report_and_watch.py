"""`report`, `watch`, `completion`, and the command as a process of its own."""

from __future__ import annotations

import base64
import json
import os
import re
import subprocess
import sys
import threading
import time
from html.parser import HTMLParser
from pathlib import Path
from types import SimpleNamespace

import pytest
import requests
from conftest import COMMAND, PROJECTS, Runner, Server
from house import PIPES, PIPES_AFTER, RULES, WALLS
from test_export import HARD, fill, post


class Page(HTMLParser):
    """A page: its text, its pictures, its tags, and whether each tag is closed."""

    def __init__(self, text: str) -> None:
        super().__init__()
        self.words = ""
        self.pictures: list[bytes] = []
        self.tags: list[str] = []
        self.left: list[str] = []
        self.feed(text)

    def handle_starttag(self, tag: str, attrs: list[tuple[str, str | None]]) -> None:
        self.tags.append(tag)
        if tag == "img":
            source = dict(attrs)["src"] or ""
            assert source.startswith("data:image/png;base64,")
            self.pictures.append(base64.b64decode(source.split(",", 1)[1], validate=True))
        elif tag in ("section", "div", "table", "tr", "td", "blockquote", "h2", "h3", "ul", "li"):
            self.left.append(tag)

    def handle_endtag(self, tag: str) -> None:
        if tag in ("section", "div", "table", "tr", "td", "blockquote", "h2", "h3", "ul", "li"):
            assert self.left.pop() == tag

    def handle_data(self, data: str) -> None:
        self.words += data


def test_a_report(run: Runner, server: Server) -> None:
    fill(run, server)
    run.ok("push", run.file("pipes.ifc", PIPES_AFTER), "--no-wait")
    done = run.ok("report", "r.html", "--since", "3", "--json").json
    assert (done["clashes"], done["topics"]) == (1, 3)
    text = (run.folder / "r.html").read_text("utf-8")
    page = Page(text)
    assert page.left == [] and "script" not in page.tags and "link" not in page.tags
    assert not re.search(r'(src|href)="(?!data:)', text)
    # a picture of the clash and of the topic that selects the wall; pipe 12 is gone
    assert len(page.pictures) == 3
    assert all(one.startswith(b"\x89PNG\r\n\x1a\n") for one in page.pictures)
    for words in ("Project 1, version 4", "New since version 3", "new Clash 1 of version 4"):
        assert words in page.words, words
    assert "=Rohr 13 (pipes, 1. OG)" in page.words and "Rohr 12 (pipes" in page.words
    assert HARD[:12] in page.words and "<Text>" not in text and "Jörg Maß" in page.words
    whole = run.ok("report", "all.html", "--json").json
    assert (whole["clashes"], whole["topics"]) == (2, 3)
    few = run.ok("report", "few.html", "--most", "1", "--no-topics", "--json").json
    assert (few["clashes"], few["topics"]) == (1, 0)
    assert "1 more aren't shown" in (run.folder / "few.html").read_text("utf-8")
    assert run("report", "none/r.html").status == 6


def test_a_watch(run: Runner, server: Server) -> None:
    run.ok("rules", "put", run.file("rules.json", RULES))
    run.file("walls.ifc", WALLS)
    run.file("pipes.ifc", PIPES)
    words = [sys.executable, "-B", str(COMMAND), "watch", "--every", "0.2", "--for", "60"]
    watch = subprocess.Popen(
        [*words, "--json", "--comments"],
        cwd=run.folder,
        env=run.full(),
        stdout=subprocess.PIPE,
        stderr=subprocess.DEVNULL,
        text=True,
    )
    assert watch.stdout
    lines: list[dict[str, object]] = []

    def read() -> None:
        for line in watch.stdout or ():
            lines.append(json.loads(line))

    reader = threading.Thread(target=read, daemon=True)
    reader.start()

    def seen(kind: str, number: int) -> None:
        end = time.monotonic() + 20
        while sum(one["event"] == kind for one in lines) < number:
            assert time.monotonic() < end, (kind, lines)
            time.sleep(0.05)

    try:
        # one change after the other until the first is seen: the watch has then begun
        end = time.monotonic() + 20
        while not lines and time.monotonic() < end:
            run.ok("rules", "put", "rules.json")
            time.sleep(0.5)
        seen("version", 1)
        versions = len([one for one in lines if one["event"] == "version"])
        run.ok("push", "walls.ifc", "pipes.ifc", "--no-wait")
        seen("version", versions + 2)
        topic = post(server, "/topics", {"title": "neu"})["guid"]
        seen("topic made", 1)
        post(server, f"/topics/{topic}/comments", {"comment": "ja"})
        seen("comment", 1)
        url = f"{server.url}/bcf/3.0/projects/{PROJECTS[0]}/topics/{topic}"
        requests.put(url, json={"title": "anders"}, timeout=10)
        seen("topic changed", 1)
        requests.delete(url, timeout=10)
        seen("topic deleted", 1)
        server.stop()
        seen("away", 1)
    finally:
        watch.kill()
        watch.wait(10)
    found = [one for one in lines if one["event"] == "clashes"][-1]
    assert (found["total"], found["new"], found["gone"]) == (2, 2, 0)


def test_a_watch_in_words_ends_in_time(
    run: Runner, server: Server, monkeypatch: pytest.MonkeyPatch
) -> None:
    """By a clock of its own, that goes on where the watch sleeps."""
    fill(run, server)
    slept: list[float] = []
    clock = SimpleNamespace(
        monotonic=lambda: sum(slept), sleep=slept.append, strftime=lambda form: "12:00:00"
    )
    monkeypatch.setattr("yulfrets.commands.watch.time", clock)
    words = ("watch", "--from-start", "--every", "0.1", "--for", "0.25")
    lines = run.ok(*words).out.splitlines()
    assert [line.split(" ", 1)[1] for line in lines[:3]] == ["version 1", "version 2", "version 3"]
    assert "clashes of version 3: 2, 2 new and 0 gone since version 0" in lines[3]
    assert "topic 1 made by jörg" in lines[4] and len(lines) == 7
    assert slept == [0.1, 0.1]


def test_a_watch_holds_no_lane(run: Runner, program: str) -> None:
    """Beside a watch of a server with one lane others are answered."""
    server = Server(program, lanes=1)
    words = [sys.executable, "-B", str(COMMAND), "watch", "--every", "2", "--for", "60"]
    watch = subprocess.Popen(
        [*words, "--from-start", "--url", server.url],
        env=run.full(),
        stdout=subprocess.PIPE,
        stderr=subprocess.DEVNULL,
    )
    try:
        post(server, "/topics", {"title": "seen"})
        assert watch.stdout and b"seen" in watch.stdout.readline()
        done = run("projects", "--url", server.url, "--timeout", "8")
        assert done.status == 0, done
        assert watch.poll() is None
    finally:
        watch.kill()
        watch.communicate(timeout=10)
        server.stop()


def complete(run: Runner, shell: str, script: str) -> list[str]:
    """What a shell's script prints."""
    path = run.file(f"try.{shell}", script)
    done = subprocess.run(
        [shell, str(path)], cwd=run.folder, capture_output=True, text=True, timeout=20, check=False
    )
    assert done.returncode == 0 and done.stderr == "", done
    return done.stdout.split()


def test_completion(run: Runner) -> None:
    run.file("haus.ifc", WALLS)
    bash = run.ok("completion", "bash").out

    def in_bash(*words: str) -> list[str]:
        line = f"COMP_WORDS=({' '.join(words)} ''); COMP_CWORD={len(words)}; _yulfrets\n"
        return complete(run, "bash", bash + line + 'printf "%s\\n" "${COMPREPLY[@]}"\n')

    assert {"push", "clashes", "export", "rules"} <= set(in_bash("yulfrets"))
    assert {"get", "put", "check"} <= set(in_bash("yulfrets", "rules"))
    found = in_bash("yulfrets", "--json", "push", "--grid")
    assert {"haus.ifc", "--fail-if-new", "snap"} <= set(found) and "clashes" not in found
    assert "--update" in in_bash("yulfrets", "import", "bcf", "x.bcf")
    assert "--update" not in in_bash("yulfrets", "export", "bcf")
    zsh = run.ok("completion", "zsh").out
    stand_in = "compadd() { shift; print -l -- $@ }; _files() { print FILES }\n"
    line = "words=(yulfrets rules ''); CURRENT=3; _yulfrets\n"
    found = complete(run, "zsh", stand_in + zsh + line)
    assert {"get", "put", "check", "FILES"} <= set(found) and "push" not in found


def test_the_command_as_a_process(run: Runner, server: Server, tmp_path: Path) -> None:
    assert run.process("--help").status == 0
    assert run.process("nonsense").status == 2
    walls = run.file("Wände Süd.ifc", WALLS)
    done = run.process("push", walls, "--json")
    assert done.status == 0 and done.json["pushed"][0]["model"] == "Waende_Sued"
    # in a pipe there is no bar and nothing is cut to a width
    done = run.process("clashes", COLUMNS="20")
    assert done.status == 0 and done.err == ""
    assert done.out.splitlines()[0].endswith("b guid")
    # a reader that goes away ends it without a traceback
    words = f"{sys.executable} -B {COMMAND} versions | true"
    env = run.full() | {"YULFRETS_URL": server.url}
    done2 = subprocess.run(["bash", "-c", words], env=env, capture_output=True, timeout=30)
    assert b"Traceback" not in done2.stderr
    server.stop()
    assert run.process("clashes").status == 4


def test_a_table_on_a_terminal(run: Runner, server: Server) -> None:
    """On a terminal of 60 columns no line is longer, and no text of a file steers it."""
    fill(run, server)
    post(server, "/topics", {"title": "\u001b[31mrot \u001b]0;x\u0007[bold]fett"})
    main, other = os.openpty()
    script = (
        "import fcntl, struct, sys, termios; "
        "fcntl.ioctl(1, termios.TIOCSWINSZ, struct.pack('HHHH', 24, 60, 0, 0)); "
        f"sys.path.insert(0, {str(COMMAND.parent.parent)!r}); "
        "from yulfrets.__main__ import main; sys.exit(main(['topics']))"
    )
    process = subprocess.Popen(
        [sys.executable, "-B", "-c", script],
        env=run.full() | {"TERM": "xterm"},
        stdin=subprocess.DEVNULL,
        stdout=other,
        stderr=subprocess.DEVNULL,
    )
    os.close(other)
    shown = b""
    try:
        while piece := os.read(main, 65536):
            shown += piece
    except OSError:
        pass
    finally:
        os.close(main)
        assert process.wait(30) == 0
    text = shown.decode()
    assert "\x1b[31m" not in text and "\x1b]0" not in text
    bare = re.sub(r"\x1b\[[0-9;]*m", "", text)
    assert max(len(line.rstrip()) for line in bare.splitlines()) <= 60
    assert "bold" in bare and "topics" in bare
