"""Odd bodies: JSON that is rightly spelled or not, and chunks."""

from random import Random

from tests.odd_streams.heads import field
from tests.odd_streams.pieces import any_bytes, date_of, line_end, number_of, text_of

MEMBERS = [
    "index",
    "priority",
    "labels",
    "due_date",
    "comment",
    "viewpoint_guid",
    "components",
    "title",
    "x",
    "rules",
    "\\u0069ndex",
]
FIRST = ['"title":"a"', '"comment":"a"', '"title":"a","comment":"a","rules":[]', '"rules":[]']


def components(chance: Random) -> str:
    """The selection of a viewpoint, of up to 1,001 components."""
    system = '{"originating_system":"' + "a" * chance.choice([64, 65]) + '"}'
    odd = ['{"ifc_guid":"0000000000000000000011"}', "{}", "null", '{"ifc_guid":"0"}', system]
    count = chance.choice([0, 1, 999, 1000, 1001])
    listed = (chance.choice(odd if chance.random() < 0.05 else ["{}"]) for _ in range(count))
    return '{"selection":[' + ",".join(listed) + "]}"


def value_of(chance: Random) -> str:
    """A member's value, of a kind that fits it or another."""
    deep = chance.choice([3, 126, 127, 128, 1000, 100000 if chance.random() < 0.1 else 129])
    color = chance.choice(['"#ff00FF"', '"ff00ff00"', '"#ff"', '"#gg0000"', "null", '""'])
    shown, exceptions = chance.choice(["true", "null", "0", '"true"']), chance.choice(
        ["[]", "null", "{}"]
    )
    return chance.choice(
        [
            text_of(chance),
            number_of(chance),
            date_of(chance),
            "[" * deep + "]" * deep,
            '{"a":' * deep + "1" + "}" * deep,
            "[" + ",".join(text_of(chance) for _ in range(chance.choice([0, 1, 20, 21]))) + "]",
            components(chance),
            '{"coloring":[{"color":' + color + ',"components":[]}]}',
            '{"visibility":{"default_visibility":' + shown + ',"exceptions":' + exceptions + "}}",
            '[{"a":"*","b":"*","distance":' + number_of(chance) + "}]",
            '[{"a":"*","b":"' + "A" * chance.choice([64, 65]) + '","distance":1}]',
            '[{"a":"*","b":"*","kind":"pierce","distance":' + chance.choice(["null", "0"]) + "}]",
            "["
            + ",".join(['{"a":"*","b":"*","kind":"ignore"}'] * chance.choice([0, 200, 201]))
            + "]",
        ]
    )


def body_of(chance: Random) -> bytes:
    """A body of JSON, rightly spelled or not."""
    first, value = chance.choice(FIRST), value_of(chance)
    whole = "{" + first + "}"
    text = chance.choice(
        ["{" + first + ',"' + chance.choice(MEMBERS) + '":' + value + "}"] * 6
        + [
            whole,
            value,
            "",
            "{" + first + ",}",
            whole + "}",
            whole + " x",
            "\ufeff" + whole,
            " \t\r\n" + whole + "\n",
            "\x0c" + whole,
            whole + "\x00",
            "{" + first + ",/**/}",
            "{first}",
            "{" + first,
        ]
    )
    data = text.encode("utf-8", "surrogatepass")
    if chance.random() < 0.1:
        at = chance.randrange(len(data) + 1)
        data = data[:at] + any_bytes(chance, 3) + data[at:]
    return data


def size_line(chance: Random, size: int, bad: bool) -> bytes:
    """The line of a chunk of so many bytes."""
    if bad and chance.random() < 0.1:
        size = chance.choice([size + 1, 0xFFFFFFFF, 4194305])
    spelled = (
        chance.choice(
            ["%x", "%X", "%08x", "0%x"]
            if not bad
            else ["%x"] * 8 + ["%09x", "0x%x", "-%x", " %x", "%x ", "%xg"]
        )
        % size
    )
    more = chance.choice(
        [b""] * 6
        + [b";a=b", b";", b'; a="b;c"', b";" + b"x" * 256]
        + ([b";" + b"x" * 257, b";a\n", b";\x00", b" ;a"] if bad else [])
    )
    return (
        spelled.encode()
        + more
        + (chance.choice([b"\r\n"] * 8 + [b"\n", b"\r"]) if bad else b"\r\n")
    )


def chunks(chance: Random, body: bytes) -> bytes:
    """The body in chunks, as a rule rightly spelled."""
    bad, out, at = chance.random() < 0.3, b"", 0
    sizes = [1, 2, 7, 100, 5000] if len(body) < 3000 else [1000, 5000]
    while at < len(body):
        piece = body[at : at + chance.choice(sizes)]
        at += len(piece)
        end = chance.choice([b"\r\n"] * 8 + [b"\n", b"", b"\r", b"\rX"]) if bad else b"\r\n"
        out += size_line(chance, len(piece), bad) + piece + end
    trailers = b"".join(
        field(chance) + line_end(chance) for _ in range(chance.choice([0] * 6 + [1, 2, 64, 65]))
    )
    return out + chance.choice([b"0", b"0", b"00000000", b"0;a"]) + b"\r\n" + trailers + b"\r\n"
