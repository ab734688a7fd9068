#!/usr/bin/env python3
"""Checks that the renaming can be undone: that in no file two old names became one.

    undo.py OLD RENAMED

OLD is a checkout of the commit before the renaming, RENAMED the same after `rename.py --steps 2`. The tokens of each file are
compared one by one. Prints each new token of a file that stands for more than one old token.
"""
import collections, os, re, sys

HERE = os.path.dirname(os.path.abspath(__file__))
sys.path.insert(0, HERE)
from rename import Renamer
from sources import Table, read, strip_comments

WORD = re.compile(r'[^\s(){}\[\];,."⌜⌝λ:&]+|[(){}\[\];."⌜⌝λ:&]')


def tokens(text, rt):
    """the tokens but those of `use` lines, which `rt fmt` sorts; a field has its dot"""
    code = re.sub(r'^(?:pub |ghost |unfoldable )*use [^\n]*', '', strip_comments(text, rt), flags=re.M)
    out = []
    for m in WORD.finditer(code):
        if m.group(0) == '.':
            continue
        out.append(('.' if code[m.start() - 1:m.start()] == '.' and m.group(0)[0].isalpha() else '') + m.group(0))
    return out


def main():
    r = Renamer(sys.argv[1], Table(os.path.join(HERE, 'names.tsv'), 2))
    files = merged = 0
    for s in r.src.values():
        old = tokens(s.text, s.rt)
        new = tokens(read(os.path.join(sys.argv[2], r.new_rel(s))), s.rt)
        files += 1
        if len(old) != len(new):
            print('%s: %d tokens became %d' % (s.rel, len(old), len(new)))
            continue
        back = collections.defaultdict(collections.Counter)
        for a, b in zip(old, new):
            back[b][a] += 1
        for b, olds in back.items():
            if len(olds) > 1:
                merged += 1
                print('%s: %s was %s' % (s.rel, b, ', '.join(olds)))
    print('%d files, %d merged names' % (files, merged))


main()
