"""Files with as many instances, or as many values, as a file may have."""

import re

from tests.ifc.basics import small_pipes

END = b"ENDSEC;\nEND-ISO"
VALUE = re.compile(rb"'[^']*'|#\d+|\.[A-Z]+\.|[-+\d][-+\d.E]*|[$*(]")


def start_and_end() -> tuple[bytes, bytes]:
    """A file of one pipe up to its last statement, and what follows."""
    start, end = small_pipes((10, "p" * 22, "p", (0, 0, 0))).split(END)
    return start, END + end


def statements(start: bytes) -> list[bytes]:
    return start[start.index(b"DATA;") :].splitlines()[1:]


def with_instances(count: int) -> bytes:
    """A file of one pipe and so many instances in all."""
    start, end = start_and_end()
    more = b"".join(b"#%d=A();\n" % (1000 + n) for n in range(count - len(statements(start))))
    return start + more + end


def with_values(count: int) -> bytes:
    """A file of one pipe and so many values in all: those within the parentheses of its instances,
    where a list counts one beside what it holds."""
    start, end = start_and_end()
    used = sum(len(VALUE.findall(line[line.index(b"(") + 1 : -2])) for line in statements(start))
    return start + b"#999=A((" + b",".join([b"0"] * (count - used - 1)) + b"));\n" + end
