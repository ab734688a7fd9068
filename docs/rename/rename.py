#!/usr/bin/env python3
"""Renames the Rattle sources of a tree by the table names.tsv.

    rename.py TREE [--steps N]

TREE is a checkout of the commit before the renaming (or of that commit with an older patch applied). It is changed in place; run
`rt fmt` in it afterwards. Names are found by what they denote, not by spelling: a name in a file is the definition that its `use`
lines import, or one of its own; a field is that of a record by its label set, its receiver or its only owner; a function is found by
its module. Words of comments are left alone, but for names between backticks.
"""
import collections, os, re, shutil, sys

from definitions import Definitions
from proofs import Proofs
from rattle import Rattle
from sources import Source, Table, read, strip_comments

HERE = os.path.dirname(os.path.abspath(__file__))


class Renamer(Definitions, Proofs, Rattle):
    def __init__(self, root, table):
        self.root, self.t = root, table
        self.src = {}
        for base, dirs, names in os.walk(os.path.join(root, 'crates')):
            dirs.sort()
            for n in sorted(names):
                if n.endswith('.antt') or n.endswith('.rt'):
                    p = os.path.join(base, n)
                    rel = os.path.relpath(p, root)
                    s = Source(rel, read(p))
                    self.src[s.key] = s
        self.exports = {}
        for s in self.src.values():
            for name, e, pub, renamed in s.imports:
                if pub:
                    self.exports[(s.key, name)] = e
        self.below = {}                             # crate -> the crates that it names
        for line in read(os.path.join(root, 'crates.txt')).split('\n'):
            if ':' in line and not line.startswith('#'):
                c, _, rest = line.partition(':')
                self.below[c] = rest.split()
        self.owner = collections.defaultdict(set)   # field name -> {(crate, type)}
        self.labels = {}                            # (crate, type) -> label set
        self.find_fields()
        self.functions = {}                         # (crate, module) -> {fn names}
        self.calls = {}                             # (crate, module, fn) -> [(crate, module, fn)]
        self.find_functions()
        self.unique = collections.defaultdict(set)  # definition name -> module keys
        for s in self.src.values():
            for n in s.own:
                self.unique[n].add(s.key)

    # -- what an entity is, through re-exports

    def resolve(self, e):
        while e[0] == 'def' and (e[1], e[2]) in self.exports:
            e = self.exports[(e[1], e[2])]
        return e

    def new_of(self, e):
        e = self.resolve(e)
        if e[0] == 'def':
            return self.t.defs.get((e[1], e[2]))
        if e[0] == 'type':
            return self.t.type.get((e[1], e[2]))
        if e[0] == 'variant':
            return self.t.variant.get((e[1], e[2], e[3]))
        return None

    # -- records and structs

    def find_fields(self):
        for s in self.src.values():
            code = strip_comments(s.text, s.rt)
            if s.rt:
                for m in re.finditer(r'\bstruct (\w+) \{([^}]*)\}', code):
                    self.add_record(s.crate, m.group(1), re.findall(r'(\w+):', m.group(2)))
            else:
                cur, ind = None, 0
                for line in code.split('\n'):
                    m = re.match(r'^( *)(?:pub )?record (\S+)', line)
                    if m:
                        cur, ind = m.group(2), len(m.group(1))
                        self.add_record(s.crate, cur, [])
                        continue
                    if cur and line.strip() and len(line) - len(line.lstrip()) <= ind:
                        cur = None
                    if cur:
                        f = re.match(r'^ {%d}(?:pub )?(\S+) :( |$)' % (ind + 2), line)
                        if f:
                            self.add_record(s.crate, cur, [f.group(1)])

    def add_record(self, crate, name, fields):
        self.labels.setdefault((crate, name), set()).update(fields)
        for f in fields:
            self.owner[f].add((crate, name))

    # -- functions and what they call

    def find_functions(self):
        self.bodies = {}
        for s in self.src.values():
            if not s.rt:
                continue
            names = set()
            impl = None
            for m in re.finditer(r'^(impl (\w+)|( *)(?:pub )?(?:extern "C" )?fn (\w+))', s.text, re.M):
                if m.group(2):
                    impl = m.group(2)
                    continue
                name = (impl + '::' if m.group(3) and impl else '') + m.group(4)
                names.add(name)
                self.bodies[(s.crate, s.mod, name)] = (s, m.start())
            self.functions[(s.crate, s.mod)] = names

    # -- the tree

    def new_rel(self, s):
        parts = s.rel.split('/')
        parts[1] = self.t.crate.get(s.crate, s.crate)
        if s.kind == 'proofs' and s.mod.endswith('/Proof'):
            segs = s.mod.split('/')[:-1]
            parts[3:] = self.proof_path(s.crate, segs) + ['Proof.antt']
        elif s.key in self.t.file:
            parts[3:] = (self.t.file[s.key] + '.' + s.rel.rsplit('.', 1)[1]).split('/')
        return '/'.join(parts)

    def run(self):
        new = {}
        for s in self.src.values():
            text = self.rattle(s) if s.rt else self.antt(s)
            for scope, old, rep in self.t.text:
                if scope == s.rel:
                    old, rep = old.replace('\\n', '\n'), rep.replace('\\n', '\n')
                    if old not in text:
                        print('text rule without a match:', scope, old)
                    text = text.replace(old, rep)
            new[self.new_rel(s)] = text
        others = {}
        for base, dirs, names in os.walk(os.path.join(self.root, 'crates')):
            for n in names:
                p = os.path.join(base, n)
                rel = os.path.relpath(p, self.root)
                if not (n.endswith('.antt') or n.endswith('.rt')):
                    parts = rel.split('/')
                    crate = parts[1]
                    parts[1] = self.t.crate.get(crate, crate)
                    if n.endswith('.edit'):
                        others['/'.join(parts)] = self.edit(crate, read(p)).encode()
                    else:
                        with open(p, 'rb') as f:
                            others['/'.join(parts)] = f.read()
        modes = {}
        shutil.rmtree(os.path.join(self.root, 'crates'))
        for rel, text in list(new.items()) + list(others.items()):
            p = os.path.join(self.root, rel)
            os.makedirs(os.path.dirname(p), exist_ok=True)
            with open(p, 'wb') as f:
                f.write(text.encode() if isinstance(text, str) else text)
        p = os.path.join(self.root, 'crates.txt')
        text = read(p)
        text = re.sub(r'[a-z_0-9]+', lambda m: self.t.crate.get(m.group(0), m.group(0)), text) if not text.startswith('#') else \
            '\n'.join(l if l.startswith('#') else re.sub(r'[a-z_0-9]+', lambda m: self.t.crate.get(m.group(0), m.group(0)), l) for l in text.split('\n'))
        with open(p, 'w') as f:
            f.write(text)

    def edit(self, crate, text):
        out, target = [], None
        for line in text.split('\n'):
            k, sep, rest = line.partition(': ')
            if k == 'file' and sep:
                rel = 'crates/%s/%s' % (crate, rest)
                target = next((s for s in self.src.values() if s.rel == rel), None)
                if target:
                    line = 'file: ' + '/'.join(self.new_rel(target).split('/')[2:])
            elif k in ('old', 'new') and sep and target:
                line = k + ': ' + self.snippet(target, rest)
            out.append(line)
        return '\n'.join(out)

    def snippet(self, s, code):
        """an edit's text, renamed as it would be in its file: `new` stands where `old` does"""
        names = self.names_of(s)
        if not s.rt:
            return self.code(s, code, names, self.parts_of(s))
        at = s.text.find(code)
        if at >= 0:
            head = s.text[:at]
            self.last_head = head
        head = getattr(self, 'last_head', '') if at < 0 else head
        mark = '\n//@@@\n'
        whole = self.rattle(s, head + mark + code)
        return whole.split('//@@@\n', 1)[1]


if __name__ == '__main__':
    steps = int(sys.argv[sys.argv.index('--steps') + 1]) if '--steps' in sys.argv else 9
    tables = Table(os.path.join(HERE, 'names.tsv'), steps)
    Renamer(sys.argv[1], tables).run()
