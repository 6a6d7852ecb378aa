"""Programs of the system that a script needs: found, or installed by their Debian package, or named
plainly."""

import os
import shutil
import subprocess
import sys

PACKAGES = {"cc": ["gcc", "libc6-dev"], "curl": ["curl"], "sqlite3": ["sqlite3"]}


def need(program: str) -> None:
    """Makes sure that a program of the system is there."""
    if shutil.which(program):
        return
    packages = PACKAGES[program]
    if shutil.which("apt-get"):
        words = ["apt-get", "install", "-y", "--no-install-recommends", *packages]
        # A new machine may have no list of packages yet.
        if subprocess.run(words, stdout=subprocess.DEVNULL, check=False).returncode:
            subprocess.run(["apt-get", "update"], stdout=subprocess.DEVNULL, check=False)
            subprocess.run(words, stdout=subprocess.DEVNULL, check=False)
    if not shutil.which(program):
        sys.exit(f"there is no {program}: install {' '.join(packages)}")


def built(path: str) -> str:
    """The absolute path of the built program; ends the script where there is none."""
    program = os.path.abspath(path)
    if not os.access(program, os.X_OK) or os.path.isdir(program):
        sys.exit(f"{program} is no program: make build leaves one")
    return program
