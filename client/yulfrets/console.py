"""What the command prints: tables for people, lines for pipes, JSON for programs, progress."""

from __future__ import annotations

import contextlib
import importlib.util
import json
import sys
import time
from collections.abc import Container, Iterator, Sequence
from typing import TYPE_CHECKING, Any

from .api import Progress

if TYPE_CHECKING:
    from rich.progress import Progress as RichProgress

Cell = str | int | None
QUIET_SECONDS = 1.5
SHOWN_ROWS = 50
MOST_COLUMNS = 6


def has_rich() -> bool:
    """Whether the package that draws on terminals is there; it is loaded only for them."""
    return importlib.util.find_spec("rich") is not None


def plain(value: Cell) -> str:
    """A cell without characters that would steer a terminal or break a line."""
    text = "" if value is None else str(value)
    return "".join(c if c.isprintable() else " " for c in text)


def counted(number: int, noun: str) -> str:
    """A number of things in words."""
    many = noun + ("es" if noun.endswith("sh") else "s")
    return f"{number} {noun if number == 1 else many}"


class Console:
    """Standard output and standard error of one command."""

    def __init__(self, as_json: bool = False, quiet: bool = False) -> None:
        self.as_json, self.quiet = as_json, quiet
        for stream in (sys.stdout, sys.stderr):
            if hasattr(stream, "reconfigure"):
                stream.reconfigure(errors="backslashreplace")

    def say(self, line: str) -> None:
        """A line of the result; none with --quiet or --json."""
        if not self.quiet and not self.as_json:
            print(plain(line))

    def note(self, line: str) -> None:
        """A line beside the result, on standard error; none with --quiet."""
        if not self.quiet:
            print(plain(line), file=sys.stderr)

    def give(self, value: Any) -> None:
        """The result as JSON, where --json asks for it."""
        if self.as_json:
            print(json.dumps(value, ensure_ascii=False, indent=2))

    def event(self, value: dict[str, Any], line: str) -> None:
        """A change as a line, or as JSON in one line."""
        if self.as_json:
            print(json.dumps(value, ensure_ascii=False), flush=True)
        else:
            print(plain(line), flush=True)

    def table(
        self,
        head: Sequence[str],
        rows: Sequence[Sequence[Cell]],
        whole: bool = True,
        narrow: Container[str] = (),
    ) -> None:
        """Rows as a table as wide as the terminal, or as lines with tabs in a pipe.

        On a terminal a table that isn't asked for whole ends after some rows, and one of many
        columns shows those of `narrow` alone.
        """
        if self.quiet or self.as_json:
            return
        if not (sys.stdout.isatty() and has_rich()):
            for row in [head, *rows]:
                print("\t".join(plain(cell) for cell in row))
            return
        shown = rows if whole else rows[:SHOWN_ROWS]
        wanted = [at for at, name in enumerate(head) if name in narrow]
        wanted = wanted if len(head) > MOST_COLUMNS else list(range(len(head)))
        cells = [[row[at] for at in wanted] for row in shown]
        self._rich_table([head[at] for at in wanted], cells)
        if len(wanted) < len(head):
            self.note(f"{len(head) - len(wanted)} more columns: --csv FILE, or in a pipe")
        if len(shown) < len(rows):
            self.note(f"{len(rows) - len(shown)} more rows: --all, or --csv FILE")

    def _rich_table(self, head: Sequence[str], rows: Sequence[Sequence[Cell]]) -> None:
        """A table whose columns fit the terminal; long cells are folded."""
        from rich import box, console, table, text

        made = table.Table(box=box.SIMPLE_HEAD, pad_edge=False)
        for at, name in enumerate(head):
            numbers = bool(rows) and all(isinstance(row[at], int) for row in rows)
            made.add_column(name, justify="right" if numbers else "left", overflow="fold")
        for row in rows:
            made.add_row(*[text.Text(plain(cell)) for cell in row])
        console.Console(highlight=False).print(made)

    @contextlib.contextmanager
    def progress(self, label: str) -> Iterator[Progress]:
        """A function that shows how far something is: on a terminal, once it takes a while."""
        seen = not self.quiet and sys.stderr.isatty() and has_rich()
        bar = Bar(label) if seen else None
        try:
            yield bar.show if bar else (lambda done, total: None)
        finally:
            if bar:
                bar.clear()


class Bar:
    """A bar on a terminal, which appears once something takes a while; needs rich."""

    def __init__(self, label: str) -> None:
        self.label, self.start = plain(label), time.monotonic()
        self.shown: RichProgress | None = None

    def show(self, done: int, total: int) -> None:
        """Draws how much is done, but for the first moments."""
        if self.shown is None:
            if time.monotonic() - self.start < QUIET_SECONDS:
                return
            from rich import console, progress

            self.shown = progress.Progress(
                progress.TextColumn("{task.description}", markup=False),
                progress.BarColumn(),
                progress.TaskProgressColumn(),
                progress.TimeRemainingColumn(),
                console=console.Console(stderr=True),
                transient=True,
            )
            self.shown.add_task(self.label, total=total)
            self.shown.start()
        self.shown.update(self.shown.task_ids[0], total=total, completed=done)

    def clear(self) -> None:
        """Takes the bar away."""
        if self.shown:
            self.shown.stop()
