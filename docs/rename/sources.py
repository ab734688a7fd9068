"""The table of names, the sources of a tree, and how their text is taken apart."""
import collections, os, re

TOKEN = re.compile(r'[^ \t\n(){}\[\];,."⌜⌝λ]+')
RUST = re.compile(r'[A-Za-z_][A-Za-z0-9_]*')
MARKS = '₀₁₂₃₄′'
# a second name of a struct
ALIASES = {'Header': ('phd', 'Facts')}


def kebab(s):
    return s.replace('_', '-')


def read(p):
    with open(p, encoding='utf-8') as f:
        return f.read()


class Table:
    """names.tsv: step, kind, scope, old, new, and for a field the receivers by which it is found"""

    def __init__(self, path, steps):
        self.crate, self.file, self.defs, self.type, self.variant, self.fn = {}, {}, {}, {}, {}, {}
        self.fields, self.local, self.text, self.const = [], collections.defaultdict(dict), [], {}
        for line in read(path).split('\n'):
            if line.strip() and not line.startswith('#'):
                step, kind, scope, old, new, receivers = (line.split('\t') + [''] * 6)[:6]
                if int(step) <= steps:
                    self.add(kind, scope, old, new, receivers)

    def add(self, kind, scope, old, new, receivers):
        parts = scope.split('/')
        if kind == 'crate':
            self.crate[old] = new
        elif kind == 'file':
            self.file[(parts[0], parts[1], old)] = new
        elif kind == 'def':
            self.defs[(tuple(parts), old)] = new
        elif kind == 'type':
            self.type[(parts[0], old)] = new
        elif kind == 'variant':
            self.variant[(parts[0], parts[1], old)] = new
        elif kind == 'fn':
            self.fn[(parts[0], scope.split('/src/')[1][:-3], old)] = new
        elif kind == 'field':
            self.fields.append((parts[0], parts[1], old, new, receivers))
        elif kind == 'local':
            self.local[scope][old] = new
        elif kind == 'const':
            self.const[old] = new
        elif kind == 'text':
            self.text.append((scope, old, new))
        else:
            raise SystemExit('unknown kind: ' + kind)


PATH = re.compile(r'Rattle·([a-z_0-9]+)(·specs|·proofs)?\.(specs|proofs)\.')
USE = re.compile(r'^((?:ghost |pub |unfoldable )*use )(Rattle·[^\s{;]+?)(\.\{([^}]*)\}| as (\S+?))?(;?)\s*$')


class Source:
    """One file: where it is, what it imports, what it defines."""

    def __init__(self, rel, text):
        self.rel, self.text = rel, text
        parts = rel.split('/')
        self.crate = parts[1]
        self.rt = rel.endswith('.rt')
        self.kind = parts[2]
        self.mod = '/'.join(parts[3:]).rsplit('.', 1)[0]
        self.key = (self.crate, self.kind, self.mod)
        self.imports = []   # (spelling here, entity, exported)
        self.aliases = {}   # alias -> module key
        self.own = set()
        for line in text.split('\n'):
            self.use(line)
        if not self.rt:
            self.definitions()

    def use(self, line):
        m = USE.match(line)
        if not m:
            return
        target = entity_of(m.group(2))
        if target is None:
            return
        if m.group(4) is not None:
            for item in split_items(m.group(4)):
                old, _, new = item.partition(' as ')
                if target[0] == 'module':
                    e = ('def', target[1], old)
                elif target[0] == 'type':
                    e = ('type', target[1], target[2])
                elif target[0] == 'variants':
                    e = ('variant', target[1], target[2], old)
                else:
                    e = ('proof',)
                self.imports.append((new or old, e, 'pub' in m.group(1).split(), bool(new)))
        elif target[0] == 'module':
            alias = m.group(5) or target[1][2].split('/')[-1]
            self.aliases[alias] = target[1]

    def definitions(self):
        for line in self.text.split('\n'):
            m = re.match(r'^( *)((?:pub |abbrev |unfoldable )*)(record |data |)([^\s:;{}().,"]+)(?=[ ])', line)
            if not m or line.lstrip().startswith('--') or m.group(4) in ('use', 'module', 'where', 'let', 'in', 'rw', 'by', 'mod', 'infix', 'infixl', 'infixr', 'unfolding', '|', '→', '≡', '∙'):
                continue
            if m.group(3) or re.match(r'( +\{[^}]*\})?( *\([^)]*\))* :( |$)', line[m.end():]):
                self.own.add(m.group(4))


def split_items(s):
    return [x.strip() for x in s.split(',') if x.strip()]


def entity_of(path):
    m = PATH.match(path)
    if not m:
        return None
    crate, kind, rest = m.group(1), m.group(3), path[m.end():].split('.')
    if rest[0] == 'declared':
        if rest[-1] == 'the-variants':
            return ('variants', crate, rest[-2])
        return ('type', crate, rest[-1])
    if rest[-1] in ('Statement', 'Tie', 'Proof'):
        return ('proof', crate, rest[:-1])
    return ('module', (crate, kind, '/'.join(rest)))


def alias_of(old, alias, new):
    """the local name of a definition that is imported under another: `nothing as nothing-of`, `moved as movedBy`"""
    if alias == old + '-of':
        return new + '-of'
    if re.fullmatch(r'[a-z]+[A-Z]\w*', alias):
        return new if '-' in new else new + 'Of'
    return alias


def strip_comments(text, rt):
    if rt:
        return re.sub(r'//[^\n]*', '', text)
    return re.sub(r'(^|(?<= ))--[^\n]*', '', text, flags=re.M)


def receiver(text, dot):
    """the token before a field access, or ) where there is an expression in parentheses; chained accesses give the last field as .f"""
    t = text[:dot].rstrip()
    if not t:
        return ''
    if t[-1] in ')]}':
        return t[-1]
    m = re.search(r'(\.?)([^ \t\n(){}\[\];,."⌜⌝λ]+)$', t)
    return (m.group(1) + m.group(2)) if m else ''


def literal_labels(text, a):
    """the labels of the record literal that has a label at a"""
    depth, i = 0, a - 1
    while i >= 0:
        c = text[i]
        if c in ')}]':
            depth += 1
        elif c in '([{':
            if depth == 0:
                break
            depth -= 1
        i -= 1
    if i < 0 or text[i] != '{' or not re.search(r'record\s*$', text[:i]):
        return None
    labels, depth, j, start = set(), 0, i + 1, True
    while j < len(text):
        c = text[j]
        if c in '([{':
            depth += 1
        elif c in ')]}':
            if depth == 0:
                break
            depth -= 1
        elif c == ';' and depth == 0:
            start = True
            j += 1
            continue
        if start and not c.isspace():
            m = TOKEN.match(text, j)
            if m:
                labels.add(m.group(0))
            start = False
        j += 1
    return labels


def struct_of(text, a):
    """the type of the Rattle struct literal, pattern or declaration that has a field at a"""
    depth, i = 0, a - 1
    while i >= 0:
        c = text[i]
        if c in ')}]':
            depth += 1
        elif c in '([{':
            if depth == 0:
                break
            depth -= 1
        i -= 1
    if i < 0 or text[i] != '{':
        return None
    m = re.search(r'([A-Z]\w*)\s*$', text[:i])
    return m.group(1) if m else None
