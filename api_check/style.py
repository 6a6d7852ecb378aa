"""The usual formatter and linters, over the checks and over the document."""

from __future__ import annotations

import subprocess
import sys

from .places import DOCUMENT, KEPT, ROOT
from .report import Report

HERE = ROOT / "api_check"


def _commands() -> dict[str, list[str]]:
    settings = str(HERE / "pyproject.toml")
    python = [sys.executable, "-m"]
    kept = str(KEPT / "mypy")
    return {
        "black": [*python, "black", "--quiet", "--check", "--config", settings, str(HERE)],
        "flake8": [*python, "flake8", "--config", str(HERE / ".flake8"), str(HERE)],
        "mypy": [*python, "mypy", "--config-file", settings, "--cache-dir", kept, str(HERE)],
        "yamllint": ["yamllint", "--strict", "-c", str(HERE / "yamllint.yaml"), str(DOCUMENT)],
    }


def check_style(report: Report) -> None:
    """Runs each, and adds what it says where it isn't content."""
    for name, words in _commands().items():
        report.doing(f"running {name}")
        run = subprocess.run(words, cwd=ROOT, capture_output=True, text=True, check=False)
        said = (run.stdout + run.stderr).splitlines()
        faults = said or [f"status {run.returncode}"]
        report.add(name, faults if run.returncode else [])
