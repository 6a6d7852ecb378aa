"""Shows that the Python beside the product is laid out, typed and free of what linters find:
python3 -m lint.python. Runs Debian's black, isort, flake8 and mypy over tests/, lint/, bench/ and
tools/ by the settings of pyproject.toml and .flake8, and shellcheck over their shell scripts; and
lists the functions of more than 60 lines. A program that isn't there is installed by its Debian
package, or named. Exit status 1 if there is any.
"""

import ast
import os
import shutil
import subprocess
import sys
from collections.abc import Iterator

from lint.repository import TOP, files_below, text_of

FOLDERS = ("tests", "lint", "bench", "tools")
MOST = 60  # lines of a function
# Each is called as a program, Debian's own before any other that is on the path: versions lay out
# otherwise.
CHECKS = {
    "black": ["--check", "--quiet", "--diff", *FOLDERS],
    "isort": ["--check-only", "--diff", *FOLDERS],
    "flake8": [*FOLDERS],
    "mypy": ["--no-error-summary"],
}
PATH = f"/usr/bin:{os.environ.get('PATH', '')}"


def programs() -> dict[str, str]:
    """The paths of the programs, which are installed where they lack; ends the script where they
    can't be."""
    wanted = [*CHECKS, "shellcheck"]
    lacking = [name for name in wanted if not shutil.which(name, path=PATH)]
    if lacking and shutil.which("apt-get"):
        words = ["apt-get", "install", "-y", "--no-install-recommends", *lacking]
        # A new machine may have no list of packages yet.
        if subprocess.run(words, stdout=subprocess.DEVNULL, check=False).returncode:
            subprocess.run(["apt-get", "update"], stdout=subprocess.DEVNULL, check=False)
            subprocess.run(words, stdout=subprocess.DEVNULL, check=False)
    found = {name: shutil.which(name, path=PATH) for name in wanted}
    lacking = [name for name, path in found.items() if path is None]
    if lacking:
        sys.exit(f"there is no {', no '.join(lacking)}: apt-get install {' '.join(lacking)}")
    return {name: path for name, path in found.items() if path}


def found_by(path: str, words: list[str]) -> str:
    """What a program finds; nothing where it ends with 0."""
    run = subprocess.run([path, *words], cwd=TOP, capture_output=True, text=True, check=False)
    text = (run.stdout + run.stderr).strip() or f"status {run.returncode}"
    return "" if run.returncode == 0 else text


def long_functions(path: str) -> Iterator[str]:
    """The functions of a file that have too many lines."""
    for node in ast.walk(ast.parse(text_of(path))):
        if isinstance(node, (ast.FunctionDef, ast.AsyncFunctionDef)):
            count = (node.end_lineno or node.lineno) - node.lineno + 1
            if count > MOST:
                yield f"{path}:{node.lineno}: {node.name} has {count} lines, {MOST} at most"


def main() -> int:
    paths, found = programs(), []
    scripts = [path for folder in FOLDERS for path in files_below(folder, ".sh")]
    for name, words in {**CHECKS, "shellcheck": scripts}.items():
        text = found_by(paths[name], words)
        if text:
            found.append(name)
            print(f"{name}:\n{text}")
    files = [path for folder in FOLDERS for path in files_below(folder, ".py")]
    long = [text for path in files for text in long_functions(path)]
    for text in long:
        print(text)
    faults = ", ".join(found) or "no linter"
    print(f"{len(files)} files, {faults} finds something, {len(long)} long functions")
    return 1 if found or long or not files else 0


if __name__ == "__main__":
    sys.exit(main())
