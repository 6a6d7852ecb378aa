"""The pieces of odd bodies and lines: bytes, line ends, texts, numbers and dates at the edge of
what is taken."""

from random import Random


def any_bytes(chance: Random, most: int, also: bytes = b"") -> bytes:
    kept = (
        bytes(range(256))
        if chance.random() < 0.5
        else b'\t !~azAZ09,;="\\()\x7f\x80\xff\xc3\xa9' + also
    )
    return bytes(chance.choice(kept) for _ in range(chance.randrange(most + 1)))


def line_end(chance: Random) -> bytes:
    return chance.choice(
        [b"\r\n"] * 30
        + [b"\n", b"\n", b"\r\n ", b"\r\n\t", b"\r", b"\r\r\n", b"\n\r", b" \r\n", b"\t\n"]
    )


# A text of JSON, or what is nearly one.
TEXTS = [
    '"a"',
    '""',
    '"\\u0000"',
    '"\\ud800"',
    '"\\ud83d\\ude00"',
    '"\\ude00\\ud83d"',
    '"\\uD83D\\u0061"',
    '"\x00"',
    '"\x1f"',
    '"\x7f"',
    '"\\x41"',
    '"\\/\\b\\f\\n\\r\\t\\"\\\\"',
    '"\\"',
    '"é"',
    '"\ufeff"',
    '"' + "a" * 1024 + '"',
    '"' + "a" * 1025 + '"',
    '"' + "é" * 512 + '"',
    '"' + "\\u00e9" * 513 + '"',
    "'a'",
    "a",
    '"a',
    '"\\u00"',
    '"\\u00g0"',
    "null",
    "{}",
    "[]",
]


NUMBERS = [
    "0",
    "-0",
    "1",
    "-1",
    "2147483647",
    "2147483648",
    "-2147483648",
    "-2147483649",
    "1.0",
    "1e2",
    "1E400",
    "-1e400",
    "1e-400",
    "0e400",
    "01",
    "+1",
    "1.",
    ".1",
    "1e",
    "0x1",
    "NaN",
    "Infinity",
    "-Infinity",
    "-",
    "9" * 19,
    "9" * 20,
    "9" * 308,
    "9" * 309,
    "9" * 4000,
    "0." + "0" * 400 + "1",
    "1" + "0" * 400 + "e-400",
    "true",
    "١",
]


DATES = [
    '"2024-05-01T12:00:00Z"',
    '"2024-05-01"',
    '"2024-02-30T00:00:00Z"',
    '"1970-01-01T00:00:00Z"',
    '"1969-12-31T23:59:59Z"',
    '"9999-12-31T23:59:59Z"',
    '"9999-12-30T22:00:00Z"',
    '"2024-05-01T24:00:00Z"',
    '"2024-05-01T12:00:60Z"',
    '"2024-05-01t12:00:00z"',
    '"2024-05-01T12:00:00.123456789Z"',
    '"2024-05-01T12:00:00.1234567890Z"',
    '"2024-05-01T12:00:00+25:59"',
    '"20240501T120000Z"',
    '"2024-05-01T12:00:00-00:00"',
    '"+002024-05-01T12:00:00Z"',
    '"-000000-05-01T12:00:00Z"',
    '"2024-05-01T12:00:00Z[u-ca=gregory]"',
    '"2024-05-01T12:00:00"',
    '""',
    "0",
    '"2024-05-01T12:00:00Z "',
    '"' + "9" * 3000 + '"',
    '"2024-05-01T12:00:00.' + "1" * 3000 + 'Z"',
]


def text_of(chance: Random) -> str:
    return chance.choice(TEXTS)


def number_of(chance: Random) -> str:
    return chance.choice(NUMBERS)


def date_of(chance: Random) -> str:
    return chance.choice(DATES)
