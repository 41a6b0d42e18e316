#!/usr/bin/env python3
"""Times how the program bench reads lists and maps, and writes a table of nanoseconds for each read.

    (cd crates/bench && rt run)
    python3 tools/bench.py [--reads N] [--times N]

For each way of reading and each number of parts the program is run with that many reads, and with none, which takes what
loading the value takes; each so many times, of which the shortest counts. The difference is divided by the reads. Of
map-load it is divided by the entries that were loaded. The processor's time is taken, which what else runs there
disturbs least.
"""

import argparse
import resource
import subprocess
from collections.abc import Iterator
from pathlib import Path

PROGRAM = Path(__file__).parent.parent / "crates/bench/out/bench"
WAYS = ["list-index", "list-loop", "map-key", "map-loop", "map-load"]
PARTS = [10, 100, 1_000, 10_000]


def used() -> float:
    """The processor's seconds that the runs so far took."""
    usage = resource.getrusage(resource.RUSAGE_CHILDREN)
    return usage.ru_utime + usage.ru_stime


def seconds(way: str, parts: int, count: int) -> float:
    """How long one run takes."""
    line = f"{way} {parts} {count}"
    begin = used()
    done = subprocess.run([PROGRAM], input=line, capture_output=True, text=True, check=True)
    took = used() - begin
    if not done.stdout.startswith(f"{line}: "):
        raise RuntimeError(f"{done.stdout!r} does not answer {line!r}")
    return took


def nanoseconds(way: str, parts: int, reads: int, times: int) -> float:
    """How long one read takes, or loading one entry."""
    count = reads // parts if way == "map-load" else reads
    idle = min(seconds(way, parts, 0) for _ in range(times))
    busy = min(seconds(way, parts, count) for _ in range(times))
    return (busy - idle) / reads * 1e9


def rows(reads: int, times: int) -> Iterator[str]:
    yield "| ns for each | " + " | ".join(f"{parts:,}" for parts in PARTS) + " |"
    yield "|---|" + "---:|" * len(PARTS)
    for way in WAYS:
        took = (nanoseconds(way, parts, reads, times) for parts in PARTS)
        yield f"| {way} | " + " | ".join(f"{one:.0f}" for one in took) + " |"


def main() -> None:
    parser = argparse.ArgumentParser()
    parser.add_argument("--reads", type=int, default=1_000_000)
    parser.add_argument("--times", type=int, default=5)
    asked = parser.parse_args()
    for row in rows(asked.reads, asked.times):
        print(row, flush=True)


main()
