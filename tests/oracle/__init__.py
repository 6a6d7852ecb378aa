"""What the program must print: the HTTP profile, the files of models and the clashes read anew, in
plain Python, from their own text (docs/API.md) and not from the program. Cases are worked out with
it. Where a stream asks for what it doesn't know it stops (Beyond): fields folded over lines, notes
behind a date.

    python3 -m tests.oracle --at N [--projects N] [--buckets N] <input >output
    python3 -m tests.oracle check .. | generate ..    the words of these commands
    python3 -m tests.oracle --cases [GROUP ..]        compares with the cases that it can follow
    python3 -m tests.cases tests/oracle.sh clients    runs cases over it, in place of the program
"""

from tests.oracle.answers import answer
from tests.oracle.book import Book
from tests.oracle.faults import Answer, Beyond, Fault, Unfinished
from tests.oracle.files import BLOCKS, FILES, SMALL_FILE
from tests.oracle.framing import read_body, read_request
from tests.oracle.session import replay, response

__all__ = [
    "BLOCKS",
    "FILES",
    "SMALL_FILE",
    "Answer",
    "Beyond",
    "Book",
    "Fault",
    "Unfinished",
    "answer",
    "read_body",
    "read_request",
    "replay",
    "response",
]
