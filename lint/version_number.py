"""Shows that each place says the same number of the version: python3 -m lint.version_number. The
places are the line that the server prints, a case and a test of it, the Makefile, by which packages
are named, the newest heading of CHANGELOG.md, docs/API.md, and the names of packages in
docs/OPERATIONS.md. Prints each place that says another number than the server, or none. Exit status
1 if there is one.
"""

import re
import sys

from lint.repository import text_of

SERVER = "crates/server_commands/src/about.rt"
NUMBER = r"(\d+\.\d+\.\d+)"
PLACES = (
    (SERVER, rf'VERSION_LINE: &str = "bim_server {NUMBER}\\n";'),
    ("cases/words/version/stdout", rf"bim_server {NUMBER}$"),
    ("crates/server_tests/src/replay_tests.rt", rf'b"bim_server {NUMBER}\\n"'),
    ("Makefile", rf"^VERSION \?= {NUMBER}$"),
    ("docs/API.md", rf"^    bim_server {NUMBER}$"),
    ("docs/OPERATIONS.md", rf"yulfrets_{NUMBER}_"),
)


def numbers_in() -> list[tuple[str, str]]:
    """Each number of the version with the file that says it, an empty one if a file says none."""
    said = [
        (path, number)
        for path, form in PLACES
        for number in re.findall(form, text_of(path), re.M) or [""]
    ]
    newest = re.search(r"^## (\S+?),? ", text_of("CHANGELOG.md"), re.M)
    return [*said, ("CHANGELOG.md", newest.group(1) if newest else "")]


def main() -> int:
    said = numbers_in()
    version = said[0][1]
    others = [(path, number) for path, number in said if not version or number != version]
    for path, number in others:
        print(f"{path}: {number or 'no number'}, and the server says {version or 'none'}")
    print(f"version {version}, {len(said)} places, {len(others)} that say another number")
    return 1 if others else 0


if __name__ == "__main__":
    sys.exit(main())
