"""Names in proofs that the checker makes of the functions, parameters and locals of the code."""
import re

from sources import kebab


class Proofs:
    # -- names that the checker generates from functions

    def parts_of(self, s):
        """kebab names of renamed functions that a proof file may mention"""
        if s.kind != 'proofs' or not s.mod.endswith('Proof'):
            return []
        segs = s.mod.split('/')[:-1]
        crate = s.crate
        body = self.body_of(crate, segs)
        out = []
        for (c, mod, fn), new in self.t.fn.items():
            last, newlast = fn.split('::')[-1], new.split('::')[-1]
            own = self.is_self(crate, segs, c, mod, fn)
            if own or (body and re.search(r'\b' + last + r'\(', body) and self.denotes(crate, segs, body, c, mod, fn)):
                out.append(('own' if own else 'fn', kebab(last), kebab(newlast)))
        for old in {o for k, o, n in out if k == 'fn'}:
            if len({n for k, o, n in out if k == 'fn' and o == old}) > 1:
                out = [x for x in out if x[:2] != ('fn', old)] + [('fn', old, self.in_turn(crate, body, old.replace('-', '_')))]
        return out + [('var', kebab(a), kebab(b)) for a, b in self.t.local.get(s.rel, {}).items()]

    def in_turn(self, crate, body, last):
        """the new names of the calls of functions of one name, in their order, each with its number among those of the same new name"""
        out = []
        for m in re.finditer(r'((?:\w+::)*)\b' + last + r'\(', body):
            q = m.group(1).rstrip(':').split('::') if m.group(1) else []
            if not q and re.search(r'\bfn $', body[:m.start()]):
                continue
            key = self.use_module(crate, self.body_mod, q) if q else (crate, self.body_mod)
            new = kebab(self.t.fn.get(key + (last,), last).split('::')[-1])
            out.append((new, 1 + sum(1 for x in out if x[0] == new)))
        return out

    def is_self(self, crate, segs, c, mod, fn):
        if c != crate:
            return False
        path = ([] if mod in ('lib', 'main') else mod.split('/')) + fn.split('::')
        return path == segs

    def body_of(self, crate, segs):
        for cut in range(len(segs) - 1, -1, -1):
            mod = '/'.join(segs[:cut])
            fn = '::'.join(segs[cut:])
            for m in ([mod] if mod else ['lib', 'main']):
                if (crate, m, fn) in self.bodies:
                    s, at = self.bodies[(crate, m, fn)]
                    indent = re.match(r' *', s.text[at:]).group(0)
                    end = re.search(r'^' + indent + r'\}$', s.text[at:], re.M)
                    self.body_mod = m
                    return s.text[at:at + (end.end() if end else len(s.text))]
        return None

    def denotes(self, crate, segs, body, c, mod, fn):
        """whether a call of that spelling in the body can be (c, mod, fn)"""
        last = fn.split('::')[-1]
        modlast = mod.split('/')[-1]
        for m in re.finditer(r'((?:\w+::)*)(\.?)\b' + last + r'\(', body):
            q = m.group(1).rstrip(':').split('::') if m.group(1) else []
            if m.group(2) == '.':
                if '::' in fn:
                    return True
                continue
            if not q:
                if '::' not in fn and (c, mod) == (crate, self.body_mod):
                    return True
                here = self.bodies_source(crate, self.body_mod)
                if here and '::' not in fn and re.search(r'^use (super|crate|[a-z_]+)(::[a-z_]+)*::' + last + ';', here.text, re.M) and (crate, self.body_mod, last) not in self.bodies:
                    u = re.search(r'^use ((?:\w+::)+)' + last + ';', here.text, re.M).group(1).rstrip(':').split('::')
                    if self.use_module(crate, self.body_mod, u) == (c, mod):
                        return True
                continue
            if '::' in fn:
                if q[-1] in (fn.split('::')[0], 'Self'):
                    return True
            elif self.use_module(crate, self.body_mod, q) == (c, mod):
                return True
        return False

    def bodies_source(self, crate, mod):
        return self.src.get((crate, 'src', mod))

    def use_module(self, crate, mod, q):
        """the module of the function qualified by q, as written in a file of a crate"""
        crates = {k[0] for k in self.src}
        if q[0] in ('crate', 'super', 'self'):
            q = q[1:]
            return (crate, '/'.join(q) if q else 'lib')
        if (crate, 'src', '/'.join(q)) in self.src:
            return (crate, '/'.join(q))
        if q[0] in crates:
            return (q[0], '/'.join(q[1:]) if q[1:] else 'lib')
        return (crate, '/'.join(q))

    STEPS = r'((?:After-|Need-)?(?:(?:add|sub|mul|div|rem|shl|shr|cast|slice-aggregate|slice-write|shared-slice-read|array-read|array-write|part)-)?)'

    def generated(self, s, tok, parts, after=''):
        """a name that the checker makes of a function's or a variable's: add-x, After-f2, f-requires-3, enum-known-x, f-spec"""
        for kind, old, new in parts:
            name = re.escape(old)
            if kind == 'own':
                if tok == old + '-spec':
                    return new + '-spec'
                continue
            if kind == 'fn':
                m = re.fullmatch(self.STEPS + name + r'(\d*)(-requires|-arg)?(-\d+)?', tok)
                if m and (m.group(1) or m.group(3) or re.match(r' \.(ensures|result|exit|last)\b', after)):
                    digits, suffix = m.group(2), m.group(4) or ''
                    if isinstance(new, list):
                        i = int(digits or suffix[1:] or 1)
                        if i > len(new):
                            return tok
                        new, j = new[i - 1]
                        digits = digits and (str(j) if j > 1 else '')
                        suffix = suffix and ('-%d' % j if j > 1 else '')
                    return m.group(1) + new + digits + (m.group(3) or '') + suffix
            else:
                m = re.fullmatch('((?:After-|Need-)?(?:enum-known-|known-)?|' + self.STEPS[1:-1] + ')' + name + r'(\d*)(-told)?(-\d+)?', tok)
                if m and (m.group(1) or re.match(r' \.given\b', after)):
                    return m.group(1) + new + m.group(2) + (m.group(3) or '') + (m.group(4) or '')
        return tok
