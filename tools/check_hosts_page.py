#!/usr/bin/env python3
"""Compares the files shown in docs/HOSTS.md with those of crates/example_host, which the gate proves.

Usage: python3 tools/check_hosts_page.py     (exit status 1 and the names where they differ)
"""
import pathlib
import re
import sys

ROOT = pathlib.Path(__file__).resolve().parent.parent
CRATE = ROOT / "crates" / "example_host"
FOLDERS = ["src", "specs", "proofs", "must-fail"]
SHOWN = re.compile(r"`crates/example_host/([^`]+)`:\n\n```\w*\n(.*?)\n```\n", re.S)


def main():
    page = (ROOT / "docs" / "HOSTS.md").read_text()
    shown = {name: text + "\n" for name, text in SHOWN.findall(page)}
    files = [path for folder in FOLDERS for path in (CRATE / folder).rglob("*") if path.is_file()]
    there = {str(path.relative_to(CRATE)): path.read_text() for path in files}
    differing = sorted(name for name in shown.keys() | there.keys() if shown.get(name) != there.get(name))
    for name in differing:
        print(f"docs/HOSTS.md does not show crates/example_host/{name} as it is", file=sys.stderr)
    sys.exit(1 if differing else 0)


if __name__ == "__main__":
    main()
