"""The words that a check is called with."""

from __future__ import annotations

import argparse


def given(purpose: str | None, *names: str) -> list[str]:
    """The words of the command line, one for each name; ends the script if they are others."""
    parser = argparse.ArgumentParser(description=purpose)
    for name in names:
        parser.add_argument(name)
    read = vars(parser.parse_args())
    return [read[name] for name in names]
