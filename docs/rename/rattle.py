"""Names in the code (.rt): crates, modules, types, variants, functions, fields and locals; contracts are definitions' text."""
import re

from sources import ALIASES, RUST, USE, entity_of, receiver, struct_of


class Rattle:
    # -- Rattle

    def rattle(self, s, text=None):
        text = s.text if text is None else text
        names = self.names_of(s)
        out = []
        for line in text.split('\n'):
            m = USE.match(line)
            if m and entity_of(m.group(2)):
                out.append(('use', self.use_line(s, m)))
            else:
                out.append(('code', line))
        res, cur = [], []
        for k, l in out:
            if k == 'use':
                if cur:
                    res.append(self.rattle_code(s, '\n'.join(cur), names))
                    cur = []
                res.append(l)
            else:
                cur.append(l)
        if cur:
            res.append(self.rattle_code(s, '\n'.join(cur), names))
        return '\n'.join(res)

    PIECES = re.compile(r'//[^\n]*|b?"(?:[^"\\]|\\.)*"|b\'(?:[^\'\\]|\\.)\'|⌜[^⌝]*⌝')

    def rattle_code(self, s, text, names):
        out, i = [], 0
        for m in self.PIECES.finditer(text):
            out.append(self.rust(s, text, i, m.start()))
            p = m.group(0)
            if p.startswith('//'):
                out.append(self.comment(s, p, names))
            elif p.startswith('⌜'):
                out.append(self.ghost(s, text, m.start(), p, names))
            else:
                out.append(p)
            i = m.end()
        out.append(self.rust(s, text, i, len(text)))
        return ''.join(out)

    def fn_at(self, s, text, at):
        m = None
        for m in re.finditer(r'^ *(?:pub )?(?:extern "C" )?fn (\w+)', text[:at], re.M):
            pass
        return m.group(1) if m else ''

    def ghost(self, s, text, at, p, names):
        local = dict(self.t.local.get(s.rel, {}))
        local.update(self.t.local.get(s.rel + '::' + self.fn_at(s, text, at), {}))
        return self.tokens(s, p, names, [], local)

    def rust(self, s, text, a, b):
        out, i = [], a
        for m in RUST.finditer(text, a, b):
            out.append(text[i:m.start()])
            out.append(self.rust_token(s, text, m))
            i = m.end()
        out.append(text[i:b])
        return ''.join(out)

    def rust_token(self, s, text, m):
        tok, a, b = m.group(0), m.start(), m.end()
        before, after = text[:a][-80:], text[b:b + 40]
        module = self.module(s, tok, before, after)
        if module:
            return module
        q = re.search(r'((?:\w+::)+)$', before)
        quals = q.group(1).rstrip(':').split('::') if q else []
        if tok in self.t.const:
            return self.t.const[tok]
        if tok[0].isupper():
            return self.type_name(s, text, a, tok, quals)
        if after.startswith('(') or re.search(r'\bfn $', before) or quals and after.startswith(';') and re.search(r'\buse (\w+::)+$', before):
            r = self.fn_name(s, text, a, tok, before, quals)
            if r:
                return r
        access = before.endswith('.') and not before.endswith('..')
        r = self.field_name(s, text, a, tok, before, after, access)
        if r:
            return r
        return tok if access else self.local_of(s, text, a).get(tok, tok)

    def module(self, s, tok, before, after):
        """a module or crate in a path"""
        own = (s.crate, 'src', tok)
        if after.startswith('::') and not before.endswith('::') and tok in self.t.crate and own not in self.src:
            return self.t.crate[tok]
        pre = re.search(r'\b(\w+)::$', before)
        if pre and after.startswith('::') and (pre.group(1), 'src', tok) in self.t.file:
            return self.t.file[(pre.group(1), 'src', tok)]
        if (after.startswith('::') or re.search(r'\b(mod|super::|crate::) *$', before)) and own in self.src:
            return self.t.file.get(own)
        return None

    def type_name(self, s, text, a, tok, quals):
        """a type, or a variant of an enum"""
        if quals and quals[-1][0].isupper():
            return self.t.variant.get((self.type_crate(s, quals[-1]), quals[-1], tok), tok)
        t = struct_of(text, a)
        if t and not quals and re.search(r'\benum ' + t + r' \{[^}]*$', text[:a]):
            return self.t.variant.get((s.crate, t, tok), tok)
        return self.t.type.get((self.type_crate(s, tok), tok), tok)

    def field_name(self, s, text, a, tok, before, after, access):
        """a field: of an access, of a struct literal or declaration, or a shorthand"""
        if access and not after.startswith('('):
            r = self.rust_field(s, tok, receiver(text, a - 1))
            if r:
                return r
        literal = re.match(r':(?!:)', after)
        shorthand = re.match(r'\s*[,}]', after) and re.search(r'[{,]\s*$', before)
        t = struct_of(text, a) if literal or shorthand else None
        if literal and t in ALIASES:
            t = ALIASES[t][1]
        if not t:
            return None
        of = self.type_crate(s, t)
        new = next((r[3] for r in self.field_rules(tok) if r[1] == t and r[0] == of), None)
        if tok not in self.labels.get((of, t), ()):
            return new if literal else None
        if literal:
            return new or tok
        value = self.local_of(s, text, a).get(tok) or tok
        return (new or tok) if (new or tok) == value else (new or tok) + ': ' + value

    def local_of(self, s, text, a):
        local = dict(self.t.local.get(s.rel, {}))
        # the function whose signature or body this is
        m = None
        for m in re.finditer(r'^ *(?:pub )?(?:extern "C" )?fn (\w+)', text[:a + 1], re.M):
            pass
        if m:
            local.update(self.t.local.get(s.rel + '::' + m.group(1), {}))
        return local

    def rust_field(self, s, tok, recv):
        for c, t, old, new, pattern in self.field_rules(tok):
            for alt in pattern.split(' || ') if pattern else []:
                where, _, rx = alt.rpartition(' : ')
                if where and not re.search(where, s.rel):
                    continue
                if re.fullmatch(rx, recv):
                    return new
        plain = [r for r in self.field_rules(tok) if not r[4] and self.sees(s.crate, r[0])]
        owners = [o for o in self.owner[tok] if self.sees(s.crate, o[0])]
        if plain and (len(owners) == 1 or all(any(r[0] == o[0] and r[1] == o[1] for r in plain) for o in owners) and len({r[3] for r in plain}) == 1):
            return plain[0][3]
        return None

    def type_crate(self, s, t):
        if t in ALIASES:
            return ALIASES[t][0]
        if re.search(r'\b(struct|enum) ' + t + r'\b', s.text):
            return s.crate
        m = re.search(r'^(?:pub )?use ((?:\w+::)+)' + t + ';', s.text, re.M)
        if m:
            q = m.group(1).rstrip(':').split('::')
            crates = {k[0] for k in self.src}
            if q[0] in ('super', 'crate', 'self') or (s.crate, 'src', q[0]) in self.src:
                return s.crate if (s.crate, t) in self.labels or any(k[0] == s.crate and k[1] == t for k in list(self.t.type)) else self.imported_type(s.crate, t)
            if q[0] in crates:
                return q[0] if self.declares(q[0], t) else self.imported_type(q[0], t)
        return self.imported_type(s.crate, t)

    def declares(self, crate, t):
        return any(k[0] == crate and x.rt and re.search(r'\b(struct|enum) ' + t + r'\b', x.text) for k, x in self.src.items())

    def imported_type(self, crate, t):
        if self.declares(crate, t):
            return crate
        own = [k for k in {x[0] for x in self.src} if self.declares(k, t)]
        return own[0] if len(own) == 1 else crate

    def fn_name(self, s, text, a, tok, before, quals):
        if re.search(r'\bfn $', before):
            impl = None
            for m in re.finditer(r'^(?:impl (\w+)|(?:pub )?(?:extern "C" )?fn )', text[:a], re.M):
                impl = m.group(1) if m.group(1) else None
            line_start = text.rfind('\n', 0, a) + 1
            inside = text[line_start] == ' '
            name = (impl + '::' + tok) if inside and impl else tok
            r = self.t.fn.get((s.crate, s.mod, name))
            return r.split('::')[-1] if r else tok
        if before.endswith('.') and not before.endswith('..'):
            cands = [(k, v) for k, v in self.t.fn.items() if '::' in k[2] and k[2].split('::')[-1] == tok]
            if len(cands) == 1:
                return cands[0][1].split('::')[-1]
            return tok
        if quals:
            if quals[-1][0].isupper():
                for k, v in self.t.fn.items():
                    if k[2] == quals[-1] + '::' + tok:
                        return v.split('::')[-1]
                return tok
            c, mod = self.use_module(s.crate, s.mod, quals)
            r = self.t.fn.get((c, mod, tok))
            return r or tok
        if tok in self.functions.get((s.crate, s.mod), ()):
            return self.t.fn.get((s.crate, s.mod, tok), tok)
        m = re.search(r'^use ((?:\w+::)+)' + tok + ';', s.text, re.M)
        if m:
            c, mod = self.use_module(s.crate, s.mod, m.group(1).rstrip(':').split('::'))
            return self.t.fn.get((c, mod, tok), tok)
        return None
