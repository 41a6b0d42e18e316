#!/usr/bin/env python3
"""Spells this repository's own names in antt as the library spells its: words in snake case, types in camel case.

usage: python3 tools/respell.py        at the top of the repository, once, right after /opt/rattle/port/port.py

tools/respell.tsv has each old name and its new one. Comments, strings and the names that Rattle makes are left alone:
in a file of answers or invariants these are the steps, behind `c.` or `l.`.
"""

import os
import re

HERE = os.path.dirname(os.path.realpath(__file__))
GOAL_FILES = ("Answers.antt", "Invariants.antt", "Choices.antt")
# a string, or a word of the language
WORDS = re.compile(r"\"[^\"\n]*\"|[^\s(){};,.«»|\"\[\]]+|\.")
STEP = re.compile(r"(?:^|[\s(){};,])[cl]\.$")
COMMENTS = {".antt": re.compile(r"(?:^|(?<=\s))--(?:\s|$)"), ".rt": re.compile(r"//"), ".edit": re.compile(r"^#")}


def table():
    with open(os.path.join(HERE, "respell.tsv"), encoding="utf-8") as f:
        return dict(line.rstrip("\n").split("\t") for line in f)


def respelled(line, names, is_goal_file):
    out, end = [], 0
    for m in WORDS.finditer(line):
        is_step = is_goal_file and STEP.search(line[: m.start()])
        if m.group(0) in names and not is_step:
            out += [line[end : m.start()], names[m.group(0)]]
            end = m.end()
    return "".join(out) + line[end:]


def main():
    names = table()
    for folder, dirs, files in os.walk("crates"):
        dirs[:] = [d for d in dirs if d != "out"]
        for name in files:
            comment = COMMENTS.get(os.path.splitext(name)[1])
            if comment is None:
                continue
            path = os.path.join(folder, name)
            with open(path, encoding="utf-8") as f:
                old = f.read()
            lines = []
            for line in old.split("\n"):
                cut = comment.search(line)
                at = cut.start() if cut else len(line)
                lines.append(respelled(line[:at], names, name in GOAL_FILES) + line[at:])
            new = "\n".join(lines)
            if new != old:
                with open(path, "w", encoding="utf-8") as f:
                    f.write(new)


if __name__ == "__main__":
    main()
