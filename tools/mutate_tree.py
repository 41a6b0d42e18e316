#!/usr/bin/env python3
"""Writes, to standard output, a job with every single-byte change of one template's tree, or of one value.

    python3 tools/mutate_tree.py JOB [NUMBER] [--load] [--position P]

NUMBER says which `add` line of the job is taken, the first being 1; with --load, which `load` line.
Each change is a line of its own, 255 for each byte of the tree or value; with --position only those
of that byte, the first being 0.
"""

import argparse
import re
import sys
from collections.abc import Iterator
from pathlib import Path

WORD = r'(?:"(?:[^"\\]|\\["\\nt])*"|(?:[0-9a-fA-F]{2})+|-)'
# the words before the bytes that are changed, and those
CALLS = {
    "add": re.compile(rf"(?P<head>add {WORD} {WORD} )(?P<packed>{WORD})"),
    "load": re.compile(rf"(?P<head>load )(?P<packed>{WORD})"),
}
ESCAPED = {'\\"': '"', "\\\\": "\\", "\\n": "\n", "\\t": "\t"}


def bytes_of(word: str) -> bytes:
    """The bytes that a word of a job stands for."""
    if word == "-":
        return b""
    if word.startswith('"'):
        return re.sub(r"\\.", lambda escape: ESCAPED[escape[0]], word[1:-1]).encode()
    return bytes.fromhex(word)


def call_line(job: str, call: str, number: int) -> re.Match:
    lines = [line for line in job.split("\n") if line.startswith(f"{call} ")]
    if not 1 <= number <= len(lines):
        raise ValueError(f"no `{call}` line {number}: the job has {len(lines)}")
    found = CALLS[call].fullmatch(lines[number - 1])
    if not found:
        raise ValueError(f"`{call}` line {number} is no call")
    return found


def changes(packed: bytes, position: int) -> Iterator[bytes]:
    """The bytes with each other value at a position."""
    for value in range(256):
        if value != packed[position]:
            yield packed[:position] + bytes([value]) + packed[position + 1 :]


def positions(packed: bytes, only: int | None) -> range:
    if only is None:
        return range(len(packed))
    if not 0 <= only < len(packed):
        raise ValueError(f"no byte {only}: there are {len(packed)}")
    return range(only, only + 1)


def mutate(path: Path, call: str, number: int, only: int | None) -> None:
    line = call_line(path.read_text(encoding="utf-8"), call, number)
    head = line["head"].encode()
    packed = bytes_of(line["packed"])
    for position in positions(packed, only):
        for changed in changes(packed, position):
            sys.stdout.buffer.write(head + changed.hex().encode() + b"\n")
    sys.stdout.buffer.flush()


def main() -> int:
    parser = argparse.ArgumentParser(description="Every single-byte change of one template's tree, or of one value, as a job.")
    parser.add_argument("job", type=Path, help="the job that has the template or value")
    parser.add_argument("number", type=int, nargs="?", default=1, help="which of its `add` lines (default: 1)")
    parser.add_argument("--load", action="store_true", help="take a `load` line instead")
    parser.add_argument("--position", type=int, help="change only this byte, the first being 0")
    args = parser.parse_args()
    try:
        mutate(args.job, "load" if args.load else "add", args.number, args.position)
    except (OSError, ValueError) as error:
        print(error, file=sys.stderr)
        return 1
    return 0


if __name__ == "__main__":
    sys.exit(main())
