"""Shows that the pages lead where they say: python3 -m lint.pages. Prints each link of README.md,
CONTRIBUTING.md, CHANGELOG.md, docs/ and the READMEs of folders whose file or heading isn't there;
each file that a page names between backticks and that isn't in the repository; each name that a
page says is in such a file and that isn't there; each place that says another number of cases than
there are; and that README.md has more than 150 lines, or a paragraph of more than six, if it has.
Exit status 1 if there is any.
"""

import os
import re
import subprocess
import sys
from collections.abc import Iterator

from lint.repository import TOP, files_below, text_of

TOP_PAGES = ("README.md", "CONTRIBUTING.md", "CHANGELOG.md")
FOLDERS = ("bench", "cases", "tests", "lint", "deploy", "api_check")
MOST_LINES = 150
MOST_IN_A_PARAGRAPH = 6
FILE = re.compile(r"`([\w./-]+\.(?:rt|antt|edit|md|py|sh))`")
# A name and the file that has it, as in "`rule_of` in `crates/bim_model/specs/Rules.antt`".
NAMED = re.compile(r"`([\w:]+)` in\s`(crates/[\w/]+\.(?:rt|antt))`")
# Named as an example or as what is to come, and not as a file that is there.
NO_FILES = {"docs/crates/NAME.md", "tests.rt", "filter_tests.rt"}
# Where pages say how many cases there are, and below which folder.
COUNTS = (
    ("README.md", r"([\d,]+) runs with their exact output", "cases"),
    ("docs/CLAIMS.md", r"as a whole: ([\d,]+) runs", "cases"),
    ("cases/README.md", r"Of the ([\d,]+) cases another", "cases"),
    ("cases/README.md", r"another program worked out ([\d,]+)\.", "cases/by_another_program"),
)


def headings(path: str) -> set[str]:
    """The names by which links lead to the headings of a page."""
    titles = re.findall(r"^#+ (.*)$", text_of(path), re.M)
    return {re.sub(r"[^\w\- ]", "", title.lower()).strip().replace(" ", "-") for title in titles}


def broken_links(page: str) -> Iterator[str]:
    """The links of a page whose file or heading isn't there."""
    for file, heading in re.findall(r"\]\(([^)#\s]*)(?:#([^)\s]*))?\)", text_of(page)):
        if file.startswith("http"):
            continue
        path = os.path.normpath(os.path.join(os.path.dirname(page), file)) if file else page
        if not os.path.exists(os.path.join(TOP, path)):
            yield f"{page}: {path} isn't there"
        elif heading and heading not in headings(path):
            yield f"{page}: {path} has no heading {heading}"


def all_files() -> list[str]:
    """The paths of the repository's files that pages may name, each after a slash."""
    listed = subprocess.run(
        ["git", "ls-files"], cwd=TOP, capture_output=True, text=True, check=True
    ).stdout
    return [f"/{path}" for path in listed.split("\n")]


def missing_files(page: str, files: list[str]) -> Iterator[str]:
    """The files that a page names, by their path or the end of it, and that aren't there."""
    for name in sorted(set(FILE.findall(text_of(page))) - NO_FILES):
        if not name.startswith("/") and not any(path.endswith(f"/{name}") for path in files):
            yield f"{page}: {name} isn't there"


def missing_names(page: str) -> Iterator[str]:
    """The names that a page says are in a file of a crate, and that aren't."""
    for name, path in NAMED.findall(text_of(page)):
        last = name.split("::")[-1]
        if not os.path.isfile(os.path.join(TOP, path)) or last not in text_of(path):
            yield f"{page}: {path} has no {name}"


def wrong_counts(files: list[str]) -> Iterator[str]:
    """The places that say another number of cases than there are."""
    for page, form, folder in COUNTS:
        count = sum(path.startswith(f"/{folder}/") and path.endswith("/status") for path in files)
        said = re.search(form, re.sub(r"\s+", " ", text_of(page)))
        if not said or said[1] != f"{count:,}":
            yield f"{page}: {said[1] if said else 'no number of'} cases, there are {count:,}"


def paragraphs(lines: list[str]) -> Iterator[list[str]]:
    """The paragraphs and items of lists, each as its lines; no tables, headings or code."""
    part: list[str] = []
    for line in [*lines, ""]:
        begins = re.match(r"- |\d+\. ", line)
        if begins or not line.strip() or re.match(r"\||#|    ", line):
            if part:
                yield part
            part = [line] if begins else []
        else:
            part.append(line)


def too_long(page: str) -> Iterator[str]:
    """Whether a page, or one of its paragraphs, has too many lines."""
    lines = text_of(page).splitlines()
    if len(lines) > MOST_LINES:
        yield f"{page}: {len(lines)} lines, {MOST_LINES} at most"
    for part in paragraphs(lines):
        if len(part) > MOST_IN_A_PARAGRAPH:
            yield f"{page}: a paragraph of {len(part)} lines: {part[0][:60]}"


def all_pages() -> list[str]:
    """The pages that are there: the three at the top, those of the folders, those under docs/."""
    pages = [*TOP_PAGES, *(f"{folder}/README.md" for folder in FOLDERS)]
    return [
        *(page for page in pages if os.path.isfile(os.path.join(TOP, page))),
        *files_below("docs", ".md"),
    ]


def main() -> int:
    pages = all_pages()
    files = all_files()
    found = [what for page in pages for what in broken_links(page)]
    found += [what for page in pages for what in missing_files(page, files)]
    found += [what for page in pages for what in missing_names(page)]
    found += [*wrong_counts(files), *too_long("README.md")]
    for what in found:
        print(what)
    print(f"{len(pages)} pages, {len(found)} faults")
    return 1 if found else 0


if __name__ == "__main__":
    sys.exit(main())
