#!/usr/bin/env python3
"""Writes examples/archive.job and examples/pot.job from the templates in examples/templates.

    python3 tools/make_example_job.py

The archive has every template, packed, and behind them trees that were damaged, one for each way in
which adding a template is refused; then values that are packed here, by docs/FORMAT.md, and loaded
or formatted, and damaged ones. It is written to crates/plot/stdin too, and the report that is expected of it to
crates/plot/stdout.
"""

import struct
import sys
from dataclasses import dataclass
from pathlib import Path

sys.dont_write_bytecode = True
from expected_report import report
from pack_template import TemplateError, pack, pack_file

ROOT = Path(__file__).resolve().parent.parent
EXAMPLES = ROOT / "examples"
PLOT = ROOT / "crates" / "plot"
TEMPLATES = ("deviation_card", "pot_list", "mark_file", "footer")

HEADER = """\
# An archive of packed templates, as the yard keeps them. Written by tools/make_example_job.py.
# Each line is a call: add NAME SOURCE TREE, supply CELLS BYTES, load VALUE or format FORMATTER VALUE.
# Text stands in double quotes, other bytes in hexadecimal digits, numbers in decimal ones. Empty lines
# and lines that begin with # are passed over.
"""

POT = b"Pot {{ n }}."
REEF = "Récif {{ n }}.".encode()

# WORDS OF A JOB

ESCAPES = str.maketrans({'"': '\\"', "\\": "\\\\", "\n": "\\n", "\t": "\\t"})


def quoted(text: bytes) -> str:
    """UTF-8 text in double quotes."""
    word = text.decode().translate(ESCAPES)
    if any(c < " " for c in word):
        raise ValueError(f"a control character has no escape: {word!r}")
    return f'"{word}"'


def add(name: str, source: str, tree: bytes) -> str:
    return f'add "{name}" {source} {tree.hex() or "-"}'


# PARTS OF A TREE, FOR THOSE THAT THE PACKER DOES NOT WRITE


def span(start: int, end: int) -> bytes:
    return struct.pack("<HH", start, end)


def variable(start: int, count: int = 1) -> bytes:
    """Of one letter at `start`; then a letter behind each dot. There may be any number of members."""
    first = b"\x00\x01" + span(start, start + 1) * 2
    rest = (start + 2 * i for i in range(1, count))
    members = [first, *(b"\x00\x01" + span(i, i + 1) + span(i - 1, i + 1) for i in rest)]
    return b"\x10" + bytes([count]) + b"".join(members[:count])


def nested_ifs(depth: int) -> tuple[bytes, bytes]:
    opening, closing = b"{% if n %}", b"{% endif %}"
    source = opening * depth + closing * depth
    ifs = (b"\x05\x00" + variable(len(opening) * i + 6) for i in range(depth))
    return source, b"".join(ifs) + b"\x0a" * (depth + 1)


def nested_expression(depth: int) -> tuple[bytes, bytes]:
    """A variable in parens, which are one less than `depth`."""
    parens = depth - 1
    source = b"{{ " + b"(" * parens + b"n" + b")" * parens + b" }}"
    end = 3 + 2 * parens + 1
    opened = (b"\x14" + span(3 + i, end - i) for i in range(parens))
    return source, b"\x02" + b"".join(opened) + variable(3 + parens) + b"\x0a"


# DAMAGED TREES


@dataclass(frozen=True)
class Damaged:
    what: str
    name: str
    source: bytes
    tree: bytes
    source_is_text: bool = True

    def lines(self) -> list[str]:
        source = quoted(self.source) if self.source_is_text else self.source.hex()
        return [f"# {self.what}", add(self.name, source, self.tree)]


def damaged() -> list[Damaged]:
    pot, reef = pack(POT), pack(REEF)
    latin = REEF.decode().encode("latin-1")
    no_command = pot[:5] + b"\x7f" + pot[6:]
    number, list_literal = b"{{ 7 }}", b"\x02\x11" + span(3, 4) + b"\x26\x00\x00\x0a"
    members = b"{{ a.b.c.d.e.f.g.h.i }}"
    nine, no_member = (b"\x02" + variable(3, count) + b"\x0a" for count in (9, 0))
    backwards = b"\x01" + span(4, 0) + pot[5:]
    past = pot[:-5] + span(11, 13) + b"\x0a"
    in_letter = b"\x01" + span(0, 2) + reef[5:]
    return [
        Damaged("cause 1: the source is Latin-1, not UTF-8", "not_utf8", latin, reef, source_is_text=False),
        Damaged("cause 2: the tree is cut inside the variable's member", "cut_inside", POT, pot[:12]),
        Damaged("cause 2: the tree is cut before the byte that ends it", "cut_end", POT, pot[:-1]),
        Damaged("cause 2: the second statement begins with 7f, no command", "unknown_byte", POT, no_command),
        Damaged("cause 2: a byte is left over", "left_over", POT, pot + b"\x0a"),
        Damaged("cause 2: a literal that is a list, 26", "list_literal", number, list_literal),
        Damaged("cause 2: a variable with 9 members", "nine_members", members, nine),
        Damaged("cause 2: a variable with no member", "no_members", members, no_member),
        Damaged("cause 3: the raw text's span is reversed", "reversed", POT, backwards),
        Damaged("cause 3: the last raw text's span ends past the source", "past_source", POT, past),
        Damaged("cause 3: the raw text's span ends inside the letter é", "inside_letter", REEF, in_letter),
        Damaged("cause 4: 15 ifs inside each other", "fifteen_ifs", *nested_ifs(15)),
        Damaged("cause 4: 17 expressions inside each other", "seventeen_levels", *nested_expression(17)),
    ]


# LINES THAT ARE NO CALLS


def bad_words() -> list[str]:
    """Adds with a word that is wrong, each behind a comment that says what it is."""
    source, tree = quoted(POT), pack(POT).hex()
    bad = [
        ("a word is missing", f'add "two_words" {source}'),
        ("two spaces between words", f'add "two_spaces"  {source} {tree}'),
        ("a backslash before r", f'add "bad_escape" "Pot\\r" {tree}'),
        ("a text without its closing quote", f'add "no_quote" {source[:-1]} {tree}'),
        ("a fourth word", f'add "four_words" {source} {tree} {tree}'),
        ("a byte that is no hexadecimal digit", f'add "no_digit" {source} {tree[:-1]}g'),
    ]
    return [line for what, call in bad for line in (f"# {what}", call)]


# VALUES THAT ARE LOADED

Value = None | bool | int | float | str | list["Value"] | dict[str, "Value"]

CARD = {
    "adjuster": "M. Le Goff",
    "date": "2026-11-26",
    "deviations": {
        "000": {"degrees": 2, "side": "E"},
        "045": {"degrees": 0, "side": ""},
        "090": {"degrees": 3, "side": "W"},
        "135": {"degrees": 1, "side": "W"},
    },
    "method": {"sun": False, "transits": ["Tourelle du Four", "Saint-Mathieu"]},
    "vessel": {
        "compass": {"maker": "Sirius", "serial": "K-118"},
        "name": "Gwennili",
        "number": "BR 318412",
        "port": "Le Conquet",
    },
}

POTS = {
    "pots": [
        {"depth": 18, "lat": 29012345, "lon": -2865400, "number": 1},
        {"depth": 22, "lat": 29013007, "lon": -2866120, "number": 2},
        {"depth": 0, "lat": -5, "lon": 0, "number": 65535},
    ]
}

EVERY_KIND = [
    None,
    False,
    True,
    -7,
    2**63 - 1,
    -(2**63),
    0.05,
    -0.0,
    float("inf"),
    'Récif "est"\t\\\n',
    "",
    [],
    {},
    [[None], {"": {}, "é": [0]}],
]

LETTERS = {"a": "x", "b": "yz"}


def length(count: int) -> bytes:
    return struct.pack("<H", count)


def packed_text(text: bytes) -> bytes:
    return length(len(text)) + text


def packed_entry(key: bytes, value: bytes) -> bytes:
    return packed_text(key) + value


def packed(value: Value) -> bytes:
    match value:
        case None:
            return b"\x20"
        case bool():
            return b"\x22" if value else b"\x21"
        case int():
            return b"\x23" + struct.pack("<q", value)
        case float():
            return b"\x24" + struct.pack("<d", value)
        case str():
            return b"\x25" + packed_text(value.encode())
        case list():
            return b"\x26" + length(len(value)) + b"".join(map(packed, value))
    entries = sorted((key.encode(), packed(part)) for key, part in value.items())
    return b"\x27" + length(len(entries)) + b"".join(packed_entry(*entry) for entry in entries)


def nested_lists(depth: int) -> bytes:
    """Each list is the only part of the one around it; the innermost is empty."""
    value: Value = []
    for _ in range(depth - 1):
        value = [value]
    return packed(value)


def load(value: bytes) -> str:
    return f"load {value.hex() or '-'}"


def map_of(*entries: tuple[bytes, bytes]) -> bytes:
    """With keys in any order, and any bytes for the values."""
    return b"\x27" + length(len(entries)) + b"".join(packed_entry(*entry) for entry in entries)


def loads() -> list[str]:
    nothing, pots = packed(None), packed(POTS)
    deep = nested_lists(16)[: -len(packed([]))] + b"\x26" + length(1)
    twice = map_of((b"a", nothing), (b"a", nothing))
    good = [
        ("the readings of a deviation card", packed(CARD)),
        ("a pot list", pots),
        ("values of each kind, and parts of parts", packed(EVERY_KIND)),
        ("16 lists inside each other", nested_lists(16)),
    ]
    refused = [
        ("cause 4: 17 lists inside each other", nested_lists(17)),
        ("cause 4: a map in 16 lists", deep + map_of((b"a", nothing))),
        ("cause 2: the same with a first key that is no text", deep + map_of((b"\xff", nothing))),
        ("cause 2: no bytes", b""),
        ("cause 2: the pot list is cut inside its last number", pots[:-1]),
        ("cause 2: a byte is left over", pots + nothing),
        ("cause 2: 11 begins no value", b"\x26" + length(1) + b"\x11"),
        ("cause 2: a string that is no text", b"\x25" + packed_text(b"R\xe9cif")),
        ("cause 2: keys that do not ascend", map_of((b"b", nothing), (b"a", nothing))),
        ("cause 2: a key that stands twice", b"\x26" + length(1) + twice),
        ("cause 2: a value in a map, met before its second key", map_of((b"b", b"\x63"), (b"a", nothing))),
    ]
    lines = [line for what, value in good + refused for line in (f"# {what}", load(value))]
    letters = packed(LETTERS)
    lines += ["# 5 cells and 5 bytes hold two letters and their keys, and no less does."]
    for supply in ("5 5", "4 5", "5 4", "0 0"):
        lines += [f"supply {supply}", load(letters)]
    lines += ["# None costs nothing.", load(nothing)]
    lines += ["# What was loaded before does not count, nor what was refused."]
    lines += ["supply 5 5", load(letters), load(pots), load(letters)]
    lines += ["# More than a store uses.", "supply 18446744073709551615 0065536", load(pots)]
    return lines


def bad_supplies() -> list[str]:
    bad = [
        ("a byte that is no decimal digit", "supply 12a 5"),
        ("a sign", "supply 5 -1"),
        ("a number that 64 bits do not hold", "supply 18446744073709551616 5"),
        ("the same, before a byte that is no digit", "supply 5 99999999999999999999x"),
        ("a number is missing", "supply 5"),
        ("both are missing", "supply "),
        ("two spaces between numbers", "supply 5  5"),
        ("a third number", "supply 5 5 5"),
        ("a load without its value", "load "),
        ("a load of two values", "load 20 20"),
        ("a load with half a byte", "load 2"),
        ("no space behind the call", "supply"),
    ]
    return [line for what, call in bad for line in (f"# {what}", call)]


# TEXTS


def format_(formatter: str, value: bytes) -> str:
    return f"format {formatter} {value.hex() or '-'}"


def formats() -> list[str]:
    lines = []
    for formatter, most in (("lat", 54_000_000), ("lon", 108_000_000)):
        lines += [f"# {formatter}: both ends and one past them, zero, and a minute"]
        numbers = (most, -most, most + 1, -most - 1, 0, -1, 29012345, 2**63 - 1, -(2**63))
        lines += [format_(formatter, packed(number)) for number in numbers]
        lines += [f"# {formatter} takes nothing but integers"]
        lines += [format_(formatter, packed(value)) for value in (None, True, 0.5, "1", [1], {"a": 1})]
    lines += ["# The plain formatter: every kind"]
    lines += [format_("plain", packed(value)) for value in EVERY_KIND]
    lines += ["# 4,096 bytes, and one more"]
    lines += [format_("plain", packed("n" * size)) for size in (4096, 4097)]
    lines += ["# Refused as a load is."]
    lines += [format_("plain", b""), format_("lat", packed(7)[:-1]), format_("lon", nested_lists(17))]
    lines += ["# A store too small by one cell, and by one byte.", "supply 0 3", format_("plain", packed(7))]
    lines += ["supply 1 2", format_("plain", packed("cod")), format_("plain", packed("co"))]
    lines += [format_("plain", packed([7])), format_("lat", packed(None)), "supply 65535 65535"]
    return lines


def bad_formats() -> list[str]:
    bad = [
        ("a formatter that is not known", "format north 20"),
        ("a formatter in quotes", 'format "plain" 20'),
        ("a formatter is missing", "format "),
        ("a value is missing", "format lat"),
        ("a value is missing behind a space", "format lon "),
        ("more behind a formatter", "format plainly 20"),
        ("two spaces", "format lat  20"),
        ("two values", "format lat 20 20"),
        ("half a byte", "format lat 2"),
        ("no space behind the call", "format"),
    ]
    return [line for what, call in bad for line in (f"# {what}", call)]


# JOBS


def archive() -> list[str]:
    lines = HEADER.splitlines()
    lines += ["", "# Templates from examples/templates."]
    for name in TEMPLATES:
        source, tree = pack_file(EXAMPLES / "templates" / f"{name}.upon")
        lines.append(add(name, quoted(source), tree))
    lines += ["", "# Damaged: each of these is refused, for the cause that is named."]
    for one in damaged():
        lines += one.lines()
    lines += ["", "# No calls: these lines are reported, and what follows still runs."]
    lines += ["# no such call", "adjust compass"]
    lines += ["# an odd number of hexadecimal digits", f"{add('odd_digits', quoted(POT), pack(POT))}0"]
    lines += ["", "# Still adds.", add("pot", quoted(POT), pack(POT))]
    lines += ["", "# No calls: each of these has a word that is wrong, as it says.", *bad_words()]
    lines += ["", "# Adds: a source in hexadecimal digits, and an empty one."]
    lines += [add("pot_in_digits", POT.hex().upper(), pack(POT)), add("empty", "-", b"\x0a")]
    lines += ["", "# Values: each is loaded, or refused for the cause that is named.", *loads()]
    lines += ["", "# No calls: each of these supplies and loads has a word that is wrong.", *bad_supplies()]
    lines += ["", "# Still loads.", load(packed(POTS))]
    lines += ["", "# Texts: what a formatter writes of each value.", *formats()]
    lines += ["", "# No calls: each of these formats has a word that is wrong.", *bad_formats()]
    return lines


def job(lines: list[str]) -> bytes:
    return ("\n".join(lines) + "\n").encode()


def write(path: Path, content: bytes) -> None:
    path.write_bytes(content)
    count = content.count(b"\n")
    print(f"{path}: {count} lines")


def main() -> int:
    try:
        archive_job = job(archive())
    except TemplateError as error:
        print(error, file=sys.stderr)
        return 1
    write(EXAMPLES / "archive.job", archive_job)
    write(EXAMPLES / "pot.job", job([add("a", quoted(POT), pack(POT))]))
    write(PLOT / "stdin", archive_job)
    write(PLOT / "stdout", report(archive_job))
    return 0


if __name__ == "__main__":
    sys.exit(main())
