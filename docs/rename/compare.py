#!/usr/bin/env python3
"""Compares the code of two trees, comments and white space aside.

    compare.py RENAMED HEAD

RENAMED is a checkout of the commit before the renaming after rename.py, boolean.py and `rt fmt`. Prints each definition, function
or proof file whose code differs, and for the files in specs/ the lines that differ.
"""
import difflib, os, re, sys


def code(path):
    with open(path, encoding='utf-8') as f:
        text = f.read()
    if path.endswith('.antt'):
        text = re.sub(r'(^|(?<=[ \n]))--[^\n]*', '', text, flags=re.M)
    elif path.endswith('.rt'):
        text = re.sub(r'//[^\n]*', '', text)
    else:
        text = re.sub(r'^#[^\n]*', '', text, flags=re.M)
    return [' '.join(line.split()) for line in text.split('\n') if line.strip()]


def tree(root):
    out = {}
    for base, dirs, names in os.walk(os.path.join(root, 'crates')):
        for n in names:
            if n.endswith(('.antt', '.rt', '.edit')):
                p = os.path.join(base, n)
                out[os.path.relpath(p, root)] = code(p)
    return out


def main():
    a, b = tree(sys.argv[1]), tree(sys.argv[2])
    same = 0
    for f in sorted(set(a) | set(b)):
        if ' '.join(a.get(f, [])) == ' '.join(b.get(f, [])) and f in a and f in b:
            same += 1
            continue
        print(f if f in a and f in b else f + (' (only before)' if f in a else ' (only after)'))
        if '/specs/' in f and f in a and f in b:
            for line in difflib.unified_diff(a[f], b[f], n=0, lineterm=''):
                if line[0] in '+-' and not line.startswith(('+++', '---')):
                    print('    ' + line)
    print('the same code in %d files' % same)


main()
