"""What every subcommand is given: the settings, the console and the project."""

from __future__ import annotations

from argparse import Namespace
from dataclasses import dataclass, field
from functools import cached_property

from .api import Project, chosen_project
from .compare import Difference, difference
from .console import Console
from .errors import Refused, UsageFault
from .records import Clash
from .settings import Settings
from .transport import Transport


@dataclass
class Context:
    """One run of the command."""

    words: Namespace
    console: Console
    settings: Settings
    transport: Transport = field(init=False)

    def __post_init__(self) -> None:
        self.transport = Transport(self.settings)

    @cached_property
    def project(self) -> Project:
        """The project that is asked for."""
        return Project(self.transport, chosen_project(self.transport, self.settings.project))

    @property
    def instance(self) -> str:
        """The name of the server in identifiers of BCF files."""
        return str(self.words.instance or self.settings.url)

    def clashes(self, number: int) -> list[Clash]:
        """All clashes of a version, with a bar while they are being looked for."""
        with self.console.progress(f"clashes of version {number}") as progress:
            return self.project.clashes(number, self.words.wait, progress)

    def compared(self, base: int, now: list[Clash]) -> Difference:
        """What is new and what is gone since an earlier version."""
        try:
            return difference(self.clashes(base), now)
        except Refused as fault:
            if fault.code == "K4":
                raise UsageFault(
                    f"version {base} isn't kept any more, so nothing can be compared with it",
                    "the last 16 versions are kept: yulfrets versions",
                ) from fault
            raise
