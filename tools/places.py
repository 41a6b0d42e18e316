"""Counts, in the src/ of every crate, the places where an older form of the language may stand: python3 tools/places.py [FOLDER]

Each point has patterns; a line of a source is a place of a point at most once. -v prints the places. The counts find candidates: which of
them stay, and why, a reader says.
"""

import os
import re
import sys

POINTS = {
    "1 own options and results, numbers for kinds": [
        r"else \{\s*return (?:Err\(|None)",
        r"Err\((\w+)\) => Err\(\w+",
        r"(?:Ok|Some)\(_\) => true",
        r"^\s*(?:Nothing|None|Passed|Empty),",
        r"-> \(u8, usize\)",
        r"fn said.*-> Option<\(u8, usize\)>",
        r"const \w+: u8 = \d+;",
        r"(?:cause|kind|why): u8\b",
        r"Err\(\w+::\w+\(\w+::\w+\)\)",
        r"Ok\((\w+)\) => Ok\(\1\)",
        r"Some\((\w+)\) => Some\(\1\)",
    ],
    "3 loops and indices counted by hand": [
        r"^\s*while (?!let)",
        r"^\s*\w+(?:\.\w+)? \+= \d+;",
        r"\[\w+ [+-] 1\]",
        r"if \w+(?:\.\w+)? (?:<|>=) \w+(?:\.\w+)*\.len\(\)",
        r"\bat == \w+\.len\(\)|pos == \w+\.len\(\)",
    ],
    "4 comparing, converting and printing by hand": [
        r"Ordering::",
        r"fn (?:is_same|is_before|has_name)\b",
        r"fn as_fault\b",
        r"fn (?:bits_of|integer_of|access_op|number|byte)\b",
        r"fn words_of_\w+",
        r"fn if_label\b",
        r"\* 256|0x1_0000 \*|256 \*|0x100 \*",
        r"\.len\(\) > 0",
        r"pub fn none\(\)",
        r"impl From<",
    ],
    "6 lengths beside buffers, arenas": [
        r"^\s*(?:pub(?:\(crate\))? )?(?:len|used|count|\w+_len): (?:usize|u8|u16),",
        r"\[\w+(?:\.\w+)*\.\.\w+(?:\.\w+)* \+ ",
        r"^\s*(?:pub(?:\(crate\))? )?(?:front|jump): u16,",
        r"fill\(|copy_from_slice",
    ],
    "7 switches on a step, tables of functions": [r"\bfn\(", r"\[fn\b", r"\b(?:step|phase|stage|mode): u\d"],
}


def sources(root):
    top = os.path.join(root, "crates")
    for crate in sorted(os.listdir(top)):
        for folder, dirs, names in os.walk(os.path.join(top, crate, "src")):
            dirs.sort()
            for name in sorted(names):
                if name.endswith(".rt"):
                    path = os.path.join(folder, name)
                    with open(path, encoding="utf-8") as f:
                        yield os.path.relpath(path, top), f.read()


def code_of(text):
    return re.sub(r"//[^\n]*", "", text)


def travelling(texts):
    """Parameters by name and type that three or more functions of a module take together, and clauses that three or more state."""
    groups, clauses = [], []
    for path, text in texts:
        seen, stated = {}, {}
        for m in re.finditer(r"\bfn (\w+)(?:<[^>]*>)?\(([^)]*)\)", text):
            params = sorted(p.strip() for p in m[2].split(",") if ":" in p)
            for i, a in enumerate(params):
                for b in params[i + 1 :]:
                    seen.setdefault((a, b), set()).add(m[1])
        for m in re.finditer(r"(?:requires|ensures)(?: \w+)? \{ ([^}]*) \}", text):
            stated[m[1]] = stated.get(m[1], 0) + 1
        groups += [(path, ", ".join(pair), len(fs)) for pair, fs in sorted(seen.items()) if len(fs) > 2]
        clauses += [(path, clause, n) for clause, n in sorted(stated.items()) if n > 2]
    return groups, clauses


def twins(texts):
    """Functions whose bodies are the same but for names of types, numbers, strings and their own callees' names."""
    shapes = {}
    for path, text in texts:
        if "tests" in path:
            continue
        for m in re.finditer(r"\bfn (\w+)[^{};]*?(?:\{[^{}]*\}[^{};]*?)*\n?\s*\{\n(.*?)\n\s{0,4}\}\n", text, re.S):
            body = re.sub(r"\b[a-z_]\w*(?=[(<])", "f", m[2])
            body = re.sub(r"\"[^\"]*\"|\b0x\w+|\b\d+\b", "0", body)
            body = re.sub(r"\b[A-Z]\w*", "T", body)
            body = re.sub(r"\s+", " ", body).strip()
            if len(body) > 30:
                shapes.setdefault(body, []).append(f"{path} {m[1]}")
    return sorted(fs for fs in shapes.values() if len(fs) > 1)


def main(argv):
    root = next((a for a in argv if not a.startswith("-")), ".")
    loud = "-v" in argv
    texts = [(path, code_of(text)) for path, text in sources(root)]
    for point, patterns in POINTS.items():
        places = set()
        for path, text in texts:
            for pattern in patterns:
                for m in re.finditer(pattern, text, re.M):
                    line = text.count("\n", 0, m.start() + len(m[0]) - len(m[0].lstrip())) + 1
                    places.add((path, line, text.split("\n")[line - 1].strip()))
        print(f"{point}: {len(places)}")
        if loud:
            for path, line, shown in sorted(places):
                print(f"    {path}:{line}: {shown}")
    same = twins(texts)
    print(f"2 twins: {sum(len(fs) for fs in same)} functions in {len(same)} groups")
    if loud:
        for fs in same:
            print("    " + "; ".join(fs))
    groups, clauses = travelling(texts)
    print(f"5 facts and parameters that go together: {len(groups)} pairs of parameters, {len(clauses)} clauses")
    if loud:
        for path, what, n in groups + clauses:
            print(f"    {path}: {what} ({n})")
    answers = lines = files = 0
    for folder, _, names in os.walk(os.path.join(root, "crates")):
        parts = os.path.relpath(folder, os.path.join(root, "crates")).split(os.sep)
        if len(parts) < 2 or parts[1] != "proofs":
            continue
        for name in names:
            if name.endswith(".antt"):
                with open(os.path.join(folder, name), encoding="utf-8") as f:
                    text = f.read()
                lines += text.count("\n")
                if name == "Answers.antt":
                    files += 1
                    answers += len(re.findall(r"^pub \S+ : goal\.", text, re.M))
    print(f"8 proofs: {answers} answers in {files} files, {lines} lines")


if __name__ == "__main__":
    main(sys.argv[1:])
