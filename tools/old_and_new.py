#!/usr/bin/env python3
"""Writes docs/DESIGN-PASS-OLD-NEW.md: public functions, types, definitions and theorems that differ between the commit at which the
design pass began and the working tree, old and new side by side. Usage: tools/old_and_new.py, at the top of the repository."""
import glob
import os
import re
import subprocess

COMMIT = open('docs/DESIGN-PASS.md').readline().strip()
OLD_SPELLING = [(r'\b(Maybe|Search)\b', 'Option ℕ'), (r'\bTagForm\b', 'Option Form'), (r'\b(Just|At|Begins)\b', 'Some'),
                (r'\b(Nothing|NotFound|Other)\b', 'None')]


def listed(old):
    if old:
        out = subprocess.run(['git', 'ls-tree', '-r', '--name-only', COMMIT, 'crates'], capture_output=True, text=True).stdout
        return out.split('\n')
    return [f for f in glob.glob('crates/**/*', recursive=True) if '/out/' not in f]


def text_of(f, old):
    if old:
        return subprocess.run(['git', 'show', f'{COMMIT}:{f}'], capture_output=True, text=True).stdout
    return open(f).read()


def squeezed(text):
    return re.sub(r'\s+', ' ', text).strip()


def rust_items(crate, f, text):
    items, owner = {}, ''
    lines = text.split('\n')
    module = f.split('/src/')[1].removesuffix('.rt').replace('/', '::')
    module = '' if module in ('lib', 'main') else module + '::'
    i = 0
    while i < len(lines):
        line = lines[i]
        m = re.match(r'impl(?:<[^>]*>)? (?:(.*) for )?(\w+)', line)
        if m:
            owner = m.group(2) + '::'
        elif line == '}':
            owner = ''
        m = re.match(r' *pub (?:extern "C" )?fn (\w+)', line)
        if m:
            head = []
            while not re.match(r' *\{ *$', lines[i]) and not (head and lines[i].rstrip().endswith('}') and 'ensures' not in lines[i] and 'requires' not in lines[i] and '×' not in lines[i]):
                head.append(lines[i])
                if lines[i].rstrip().endswith(' {') and 'ensures' not in lines[i] and 'requires' not in lines[i]:
                    break
                i += 1
            items[f'{crate}::{module}{owner if line.startswith(" ") else ""}{m.group(1)}'] = '\n'.join(head).rstrip(' {')
        m = re.match(r'pub (struct|enum|trait|const) (\w+)', line)
        if m:
            body = [line]
            while not re.match(r'.*[;}]$', body[-1]) or (body[0].endswith('{') and lines[i] != '}'):
                i += 1
                body.append(lines[i])
            items[f'{crate}::{module}{m.group(2)} ({m.group(1)})'] = '\n'.join(b for b in body if not b.lstrip().startswith('//'))
        i += 1
    return items


def spec_items(crate, f, text):
    items = {}
    module = os.path.basename(f).removesuffix('.antt')
    blocks = re.split(r'\n\s*\n', text)
    for block in blocks:
        lines = [l for l in block.split('\n') if not l.lstrip().startswith('--')]
        if not lines:
            continue
        m = re.match(r' *(unfoldable |abbrev )?pub (record |data )?(\S+)', lines[0])
        if not m or m.group(3) in ('mod', 'use'):
            continue
        name = m.group(3)
        if m.group(1) or m.group(2):
            shown = lines
        else:  # a theorem: its statement, without the proof
            shown = []
            for l in lines:
                if shown and (re.match(r' *' + re.escape(name) + r'\b', l) or re.match(r' *unfolding ', l)):
                    break
                shown.append(l)
        items[f'{crate} {module}.{name}'] = '\n'.join(shown)
    return items


def items_of(old):
    items = {}
    for f in listed(old):
        m = re.match(r'crates/(\w+)/', f)
        if not m:
            continue
        if re.search(r'/src/.*\.rt$', f):
            items.update(rust_items(m.group(1), f, text_of(f, old)))
        elif re.search(r'/specs/.*\.antt$', f) and not f.endswith('/Lib.antt'):
            items.update(spec_items(m.group(1), f, text_of(f, old)))
    return items


def respelled(text):
    for a, b in OLD_SPELLING:
        text = re.sub(a, b, text)
    return text


def main():
    before, now = items_of(True), items_of(False)
    changed, spelling, gone, new = [], [], [], []
    for name in sorted(set(before) | set(now)):
        a, b = before.get(name), now.get(name)
        if a is None:
            new.append(name)
        elif b is None:
            gone.append(name)
        elif squeezed(a) != squeezed(b):
            (spelling if squeezed(respelled(a)) == squeezed(respelled(b)) else changed).append(name)
    with open('docs/DESIGN-PASS-OLD-NEW.md', 'w') as out:
        out.write('# The design pass, old and new\n\nMade by `tools/old_and_new.py`: public functions with their clauses, types with their '
                  'ghost fields, definitions, and theorems\nwithout their proofs, at ' + COMMIT + ' and now. What states the promise of each that '
                  'is gone is in\n[DESIGN-PASS.md](DESIGN-PASS.md).\n\n')
        out.write(f'## Changed ({len(changed)})\n')
        for name in changed:
            out.write(f'\n### {name}\n\nold:\n\n```text\n{before[name]}\n```\n\nnew:\n\n```text\n{now[name]}\n```\n')
        out.write(f'\n## Changed only in spelling: Maybe, Search and TagForm are Option ({len(spelling)})\n\n')
        out.write('\n'.join(f'- {n}' for n in spelling) + '\n')
        out.write(f'\n## Gone ({len(gone)})\n')
        for name in gone:
            out.write(f'\n### {name}\n\n```text\n{before[name]}\n```\n')
        out.write(f'\n## New ({len(new)})\n')
        for name in new:
            out.write(f'\n### {name}\n\n```text\n{now[name]}\n```\n')
    print(len(changed), 'changed,', len(spelling), 'in spelling,', len(gone), 'gone,', len(new), 'new')


main()
