"""Shows that the pages are plain English and laid out alike: python3 -m lint.plain. Prints words
for which a plainer one is usual, sentences of more than 38 words, and pages that lint.wrap would
change. Code and what is between backticks isn't looked at. Exit status 1 if there is any.
"""

import re
import sys
from collections.abc import Iterator

from lint.pages import all_pages
from lint.repository import text_of
from lint.wrap import wrapped

MOST_WORDS = 38
PLAINER = {
    r"want of memory|memory (?:is|was) wanting": "out of memory",
    r"(?:fore)?told|tells?": "said, says",
    r"hangs? on": "depends on",
    r"sees? to it": "makes sure",
    r"(?:has|have) (?:it|these|those|them) not": "doesn't have",
    r"but for": "except",
    r"passed over": "ignored",
    r"where memory is": "if memory is",
    r"stands? (?:behind|there|before)": "comes after, is there, comes before",
    r"fronts of|a front of (?:it|what|the list)": "a prefix of",
}


def parts(text: str) -> Iterator[str]:
    """The paragraphs, items of lists and cells of tables, each in one line; no headings or code."""
    text = re.sub(r"^```.*?^```", "", text, flags=re.S | re.M)
    part: list[str] = []
    for line in [*text.split("\n"), ""]:
        begins = re.match(r" *(?:- |\d+\. )", line)
        is_table = re.match(r"\s*\|", line)
        if begins or is_table or not line.strip() or line.startswith("#"):
            yield " ".join(part)
            part = [line[begins.end() :]] if begins else []
        elif part or not line.startswith("    "):
            part.append(line.strip())
        if is_table:
            yield from (cell.strip() for cell in line.split("|"))


def plain(part: str) -> str:
    """A part with each link as its words, and with one word for each span of code."""
    part = re.sub(r"`[^`]*`", "CODE", part)
    return re.sub(r"!?\[([^\]]*)\]\([^)]*\)", r"\1", part).replace("*", "")


def sentences(part: str) -> list[str]:
    return re.split(r"(?<=[.!?])[\")]*\s+(?=[A-Z\"(\d])", part)


def faults(page: str) -> Iterator[str]:
    text = text_of(page)
    if wrapped(text) != text:
        yield f"{page}: isn't wrapped: python3 -m lint.wrap {page}"
    for part in map(plain, parts(text)):
        for word, better in PLAINER.items():
            if found := re.search(rf"\b(?:{word})\b", part, re.I):
                yield f"{page}: {found[0]} (say {better}): {part[:60]}"
        for sentence in sentences(part):
            count = sum(1 for word in sentence.split() if re.search(r"\w", word))
            if count > MOST_WORDS:
                yield f"{page}: a sentence of {count} words: {sentence[:60]}"


def main() -> int:
    pages = all_pages()
    found = [what for page in pages for what in faults(page)]
    for what in found:
        print(what)
    print(f"plain: {len(pages)} pages, {len(found)} places")
    return 1 if found else 0


if __name__ == "__main__":
    sys.exit(main())
