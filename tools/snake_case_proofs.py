#!/usr/bin/env python3
"""Spells the local lemmas and variables of functions' proofs in snake case: `class-width-is` becomes `class_width_is`.

usage: python3 tools/snake_case_proofs.py      once, at the top of the repository, after the goals in those proofs have today's names

The names of goals, invariants and steps, which Rattle makes, keep their dashes. Last, each crate is laid out by `rt fmt`.
"""

import os
import re
import subprocess

TOKEN = r"[^\s(){}\[\].,;:«»λ→×∷≡≤<>+*/%^⌜⌝∗|&\"!=∙⊎¬↔←◌`]+"
DASHED = re.compile(r"[a-z][a-z0-9]*([-_][a-z0-9]+)*(-[a-z0-9]+)+([-_][a-z0-9]+)*'*")
MADE = re.compile(r"(invariant|decreases)-")


def turned_names(text):
    names = set()
    for m in re.finditer(r"(?m)^[ \t]*(?:(?:abbrev|unfoldable|pub)\s+)*(" + TOKEN + r")\s*:\s+(\S+)", text):
        if not re.match(r"(tie\.Need-|goal\.)", m.group(2)):
            names.add(m.group(1))
    names |= set(re.findall(r"\blet\s+(" + TOKEN + r")\s*[:=]", text))
    for m in re.finditer(r"λ((?:\s+" + TOKEN + r")+)\s*\.", text):
        names |= set(m.group(1).split())
    for m in re.finditer(r"\(((?:" + TOKEN + r"\s+)+):\s", text):
        names |= set(m.group(1).split())
    tokens = set(re.findall(TOKEN, text))
    return {n: n.replace("-", "_") for n in names if DASHED.fullmatch(n) and not MADE.match(n) and n.replace("-", "_") not in tokens}


def main():
    count = 0
    for folder, folders, files in os.walk("crates"):
        folders[:] = sorted(f for f in folders if f != "out")
        if not re.search(r"/proofs/.", folder):
            continue
        for name in files:
            path = os.path.join(folder, name)
            if not name.endswith(".antt"):
                continue
            with open(path, encoding="utf-8") as f:
                text = f.read()
            names = turned_names(text)
            for old, new in names.items():
                text = re.sub(r"(?<![\w.'-])" + re.escape(old) + r"(?![\w'-])", new, text)
            count += len(names)
            with open(path, "w", encoding="utf-8") as f:
                f.write(text)
    for name in sorted(os.listdir("crates")):
        subprocess.run(["rt", "fmt"], cwd=os.path.join("crates", name), check=True)
    print(f"{count} local names are in snake case")


if __name__ == "__main__":
    main()
