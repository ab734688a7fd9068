#!/usr/bin/env python3
"""Spells the project's own definitions, lemmas and local names in snake case: `row-width` becomes `row_width`, `stringOf` becomes `string_of`.

usage: python3 tools/snake_case.py      once, at the top of the repository, after the move to the Rattle whose words are in snake case

A name is turned in every .rt and .antt file below crates/ if it stands in a source file's clauses, in specs/ or in a file of lemmas. A name
that some file imports from the toolchain's library keeps its spelling, and so does one that stands in a function's own proof alone: those
are mostly the names of goals. In comments, and in the pages of docs/, a name is turned where it stands in backquotes. Last, each
crate is laid out by `rt fmt`.
"""

import collections
import os
import re
import subprocess
import sys

TOKEN = re.compile(r"[^\s(){}\[\].,;:«»λ→×∷≡≤<>+*/%^⌜⌝∗|&\"!=∙⊎¬↔←◌`]+")
DASHED = re.compile(r"[a-z][a-z0-9]*([-_][a-z0-9]+)*(-[a-z0-9]+)+([-_][a-z0-9]+)*'*")
CAMEL = re.compile(r"[a-z][a-z0-9]*([A-Z][A-Za-z0-9]*)+")
FUNCTION_PROOF = re.compile(r"/proofs/.+/[^/]+\.antt$")
IMPORT = re.compile(r"\buse\s+([A-Za-z_.]+?)\.?\{([^}]*)\}")


def files():
    for folder, folders, names in os.walk("crates"):
        folders[:] = sorted(f for f in folders if f != "out")
        for name in sorted(names):
            if name.endswith((".rt", ".antt")):
                yield os.path.join(folder, name)


def split_comment(line, path):
    """A line's code and its comment."""
    m = re.search(r"(^|\s)//.*$" if path.endswith(".rt") else r"(^|\s)--(\s.*)?$", line)
    return (line[: m.start()], line[m.start() :]) if m else (line, "")


def read(path):
    with open(path, encoding="utf-8") as f:
        return f.read()


def spellings():
    """The project's own names that are not in snake case, and how each is spelled from now on."""
    crates = set(os.listdir("crates"))
    imported, found = set(), set()
    for path in files():
        text = read(path)
        for m in IMPORT.finditer(text):
            parts = m.group(1).split(".")
            if parts[0] != "Rattle" or parts[1] not in crates:
                imported |= {n.strip().split(" as ")[0].strip() for n in m.group(2).split(",")}
        if FUNCTION_PROOF.search(path):
            continue
        for line in text.splitlines():
            code, _ = split_comment(line, path)
            if path.endswith(".antt") or re.search(r"ghost|requires|ensures", code):
                found |= {m.group(0) for m in TOKEN.finditer(code)}
    turned = {n: n.replace("-", "_") for n in found - imported if DASHED.fullmatch(n)}
    turned |= {n: re.sub("([A-Z])", lambda m: "_" + m.group(1).lower(), n) for n in found - imported if CAMEL.fullmatch(n)}
    twice = [n for n, k in collections.Counter(turned.values()).items() if k > 1]
    if twice:
        sys.exit(f"these names would fall together: {twice}")
    return turned


def turn(text, turned):
    return TOKEN.sub(lambda m: turned.get(m.group(0), m.group(0)), text)


def in_backquotes(text, turned):
    return re.sub(r"`[^`\n]*`", lambda m: turn(m.group(0), turned), text)


def main():
    turned = spellings()
    for path in files():
        lines = []
        for line in read(path).split("\n"):
            code, comment = split_comment(line, path)
            lines.append(turn(code, turned) + in_backquotes(comment, turned))
        with open(path, "w", encoding="utf-8") as f:
            f.write("\n".join(lines))
    spelled = {m.group(0) for path in files() for m in TOKEN.finditer(read(path))}
    pages = {n for name in os.listdir("docs") if name.endswith(".md") for n in TOKEN.findall(read(os.path.join("docs", name)))}
    turned |= {n: n.replace("-", "_") for n in pages if DASHED.fullmatch(n) and n.replace("-", "_") in spelled}
    for name in sorted(os.listdir("docs")):
        if name.endswith(".md") and name != "NAMES.md":
            path = os.path.join("docs", name)
            text = read(path)
            with open(path, "w", encoding="utf-8") as f:
                f.write(in_backquotes(text, turned))
    for name in sorted(os.listdir("crates")):
        subprocess.run(["rt", "fmt"], cwd=os.path.join("crates", name), check=True)
    print(f"{len(turned)} names are in snake case")


if __name__ == "__main__":
    main()
