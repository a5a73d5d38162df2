#!/usr/bin/env python3
"""Brings the names of this repository's definitions and lemmas to today's spelling, once, after port.py.

usage: python3 tools/respell.py [--dry]      at the top of the repository

Types and facts, which begin with a capital, go to upper camel case (Run-after: RunAfter); all else goes to snake case
(rule-at: rule_at). A name counts as this repository's own if a file of specs/ or proofs/ declares it; names of goals,
of steps and of the library are left as they are, and so are strings, and the functions of src/.
"""

import os
import re
import sys

# Names that would fall together with one of the library, beside which they stand.
OTHERWISE = {"bit-and": "bit_of_and", "bit-or": "bit_of_or", "bit-xor": "bit_of_xor"}
TOKEN = re.compile(r"[^\s(){}\[\],;.\"«»|]+")
HEAD = re.compile(r"^(\s*)((?:abbrev |unfoldable |pub |record |data |ruleset )*)([^\s(){}\[\],;.\"«»|]+)(?=\s+[:({]|\s*$)")


def files(root, endings):
    for folder, dirs, names in os.walk(os.path.join(root, "crates")):
        dirs[:] = sorted(d for d in dirs if d != "out")
        for n in sorted(names):
            if n.endswith(endings):
                yield os.path.join(folder, n)


def read(path):
    with open(path, encoding="utf-8") as f:
        return f.read()


def today(name):
    if name in OTHERWISE:
        return OTHERWISE[name]
    parts = name.split("-")
    if name[0].isupper():
        return "".join(p[:1].upper() + p[1:] for p in parts)
    return "_".join(parts)


def hyphened(name):
    return "-" in name and not name.startswith("-") and not name.endswith("-") and re.search(r"[A-Za-z]", name) and "--" not in name and "->" not in name


def declared(root):
    """The names that files of specs/ and proofs/ declare, and those of them that are fields of records."""
    names, fields = set(), set()
    for path in files(root, ".antt"):
        answers = "/proofs/" in path and os.path.basename(path) in ("Answers.antt", "Invariants.antt", "Given.antt", "Proof.antt")
        in_record = False
        for line in read(path).splitlines():
            if line.lstrip().startswith("--"):
                continue
            m = HEAD.match(line)
            if line.strip() and not line[0].isspace():
                in_record = bool(re.match(r"(pub )?record ", line))
            if not m:
                continue
            indent, words, name = m.groups()
            rest = line[m.end():].strip()
            if not hyphened(name) or rest.startswith((": goal.", ": need.", ": given.")):
                continue
            if answers and not rest.startswith(":"):
                continue
            if rest.startswith(":") or "record" in words or "data" in words or "ruleset" in words:
                names.add(name)
                if indent and in_record:
                    fields.add(name)
    return names, fields


def imported(root):
    """The names that come from the library: those would be hit if they were respelled."""
    found = set()
    for path in files(root, (".antt", ".rt")):
        for m in re.finditer(r"use (?:Rattle\.std|Prim|native|lib|mathlib|borrow)\.[\w.]*\{([^}]*)\}", read(path)):
            found |= {w.strip().split(" as ")[0] for w in m.group(1).split(",")}
    return found


def turned(text, table, fields):
    out, last = [], 0
    for m in TOKEN.finditer(text):
        word = m.group(0)
        if word not in table:
            continue
        if m.start() and text[m.start() - 1] == "." and m.start() > 1 and not text[m.start() - 2].isspace() and word not in fields:
            before = re.search(r"[^\s(){}\[\],;]+\.$", text[: m.start()])
            if before and re.match(r"(c|g|l|w|w'|goal|need|v)\b", before.group(0)):
                continue
        out += [text[last : m.start()], table[word]]
        last = m.end()
    return "".join(out) + text[last:]


def rust(text, table, fields):
    """Of a source file the ghost lines and clauses alone: what stands in braces after requires, ensures or a ghost item."""
    out = []
    for line in text.splitlines(keepends=True):
        if re.match(r"\s*(pub )?(ghost |requires |ensures |let ghost)", line) or re.match(r"\s*ghost use ", line):
            line = turned(line, table, fields)
        out.append(line)
    return "".join(out)


def main(argv):
    root = "."
    names, fields = declared(root)
    library = imported(root)
    table = {n: today(n) for n in names if n not in library}
    for n in sorted(names & library):
        print(f"left, since the library has it too: {n}")
    tokens = set()
    for path in files(root, ".antt"):
        tokens |= set(TOKEN.findall(read(path)))
    back = {}
    for n, t in sorted(table.items()):
        if t in tokens:
            print(f"falls together with a name that is there: {n} -> {t}")
        if t in back:
            print(f"fall together: {n}, {back[t]} -> {t}")
        back[t] = n
    print(f"{len(table)} names, {len(fields)} of them fields")
    if "--dry" in argv:
        return
    for path in files(root, (".antt", ".rt")):
        text = read(path)
        new = (rust if path.endswith(".rt") else turned)(text, table, fields)
        if new != text:
            with open(path, "w", encoding="utf-8") as f:
                f.write(new)
    for path in ["README.md"] + [os.path.join("docs", n) for n in sorted(os.listdir("docs"))]:
        if not path.endswith(".md"):
            continue
        text = read(path)
        new = re.sub(r"`[^`\n]+`", lambda m: turned(m.group(0)[:-1], {"`" + a: "`" + b for a, b in table.items()} | table, fields) + "`", text)
        if new != text:
            with open(path, "w", encoding="utf-8") as f:
                f.write(new)


main(sys.argv[1:])
