"""Names in definitions, theorems and proofs (.antt): by what the `use` lines import, by records and their fields."""
import re

from sources import MARKS, TOKEN, PATH, USE, alias_of, entity_of, literal_labels, receiver, split_items


class Definitions:
    # -- one file

    def names_of(self, s):
        """spelling -> new spelling, in name position"""
        out = {}
        for name, e, pub, renamed in s.imports:
            new = self.new_of(e)
            if new and not renamed:
                out[name] = new
            elif new and e[0] == 'def' and alias_of(e[2], name, new) != name:
                out[name] = alias_of(e[2], name, new)
        for n in s.own:
            new = self.t.defs.get((s.key, n))
            if new:
                out[n] = new
        return out

    def path(self, p):
        m = PATH.match(p)
        crate, suffix, kind, rest = m.group(1), m.group(2) or '', m.group(3), p[m.end():].split('.')
        e = entity_of(p)
        new = list(rest)
        if rest[0] == 'declared':
            i = -2 if rest[-1] == 'the-variants' else -1
            t = self.t.type.get((crate, rest[i]))
            if t:
                new[i] = t
            for j in range(1, len(rest) + i):
                new[j] = self.module_name(crate, '/'.join(rest[1:j + 1]))
        elif e[0] == 'proof':
            fn = '::'.join(rest[:-1])
            new[:-1] = self.proof_path(crate, rest[:-1])
        else:
            f = self.t.file.get((crate, kind, '/'.join(rest)))
            if f:
                new = f.split('/')
        return 'Rattle·' + self.t.crate.get(crate, crate) + suffix + '.' + kind + '.' + '.'.join(new)

    def module_name(self, crate, mod):
        return self.t.file.get((crate, 'src', mod), mod).split('/')[-1]

    def proof_path(self, crate, segs):
        """the folder of a function's proof: [module..] [Type] fn"""
        segs = list(segs)
        for cut in range(len(segs) - 1, -1, -1):
            mod = '/'.join(segs[:cut]) or 'lib'
            fn = '::'.join(segs[cut:])
            for m in ([mod, 'main'] if mod == 'lib' else [mod]):
                if fn in self.functions.get((crate, m), ()):
                    new = self.t.fn.get((crate, m, fn))
                    last = new.split('::')[-1] if new else segs[-1]
                    mods = [self.module_name(crate, '/'.join(segs[:i + 1])) for i in range(cut)]
                    mid = segs[cut:-1]
                    mid = [self.t.type.get((crate, x), x) for x in mid]
                    return mods + mid + [last]
        return segs

    def use_line(self, s, m):
        out = m.group(1) + self.path(m.group(2))
        target = entity_of(m.group(2))
        if m.group(4) is not None:
            items = []
            for item in split_items(m.group(4)):
                old, sep, new = item.partition(' as ')
                if target[0] == 'module':
                    r = self.new_of(('def', target[1], old))
                elif target[0] == 'type':
                    r = self.new_of(('type', target[1], target[2])) if old == target[2] else None
                elif target[0] == 'variants':
                    r = self.t.variant.get((target[1], target[2], old))
                else:
                    r = None
                    if target[0] == 'proof' and old.endswith('-spec'):
                        p = self.proof_path(target[1], target[2])
                        r = '-'.join(kebab(x) for x in [p[-1]]) + '-spec'
                n = r or old
                if sep:
                    alias = self.t.local.get(s.rel, {}).get(new) or (alias_of(old, new, r) if r and target[0] == 'module' else new)
                    n += ' as ' + alias if alias != n else ''
                items.append(n)
            out += '.{' + ', '.join(items) + '}'
        elif m.group(5):
            out += ' as ' + self.t.local.get(s.rel, {}).get(m.group(5), m.group(5))
        return out + m.group(6)

    def antt(self, s):
        lines, body = [], []
        text = s.text
        # use lines first, one at a time, then the code as a whole
        chunks, cur = [], []
        for line in text.split('\n'):
            m = USE.match(line)
            if m and entity_of(m.group(2)):
                if cur:
                    chunks.append(('code', '\n'.join(cur)))
                    cur = []
                chunks.append(('use', self.use_line(s, m)))
            else:
                mm = re.match(r'^((?:pub )?mod )(\S+)$', line)
                if mm and s.mod == 'Lib':
                    line = mm.group(1) + self.t.file.get((s.crate, s.kind, mm.group(2)), mm.group(2))
                cur.append(line)
        if cur:
            chunks.append(('code', '\n'.join(cur)))
        names = self.names_of(s)
        parts = self.parts_of(s)
        return '\n'.join(c if k == 'use' else self.code(s, c, names, parts) for k, c in chunks)

    def code(self, s, text, names, parts):
        local = self.t.local.get(s.rel, {})
        kept = []

        def keep(m):
            kept.append(self.comment(s, m.group(0), names))
            return '\x01%d\x01' % (len(kept) - 1)
        text = re.sub(r'(?:^|(?<=[ \n]))--[^\n]*', keep, text)
        text = self.tokens(s, text, names, parts, local)
        return re.sub(r'\x01(\d+)\x01', lambda m: kept[int(m.group(1))], text)

    def tokens(self, s, text, names, parts, local):
        out, i = [], 0
        for m in TOKEN.finditer(text):
            out.append(text[i:m.start()])
            out.append(self.token(s, text, m, names, parts, local))
            i = m.end()
        out.append(text[i:])
        return ''.join(out)

    def token(self, s, text, m, names, parts, local):
        tok, a, b = m.group(0), m.start(), m.end()
        if tok[0] == '«':
            g = self.generated(s, tok.strip('«»'), parts, text[b:])
            return tok if g == tok.strip('«»') else g
        base = tok.rstrip(MARKS)
        mark = tok[len(base):]
        if a > 0 and text[a - 1] == '.':
            return self.after_dot(s, text, a, b, tok, parts, local)
        r = self.in_record(s, text, a, b, tok)
        if r is not None:
            return r
        if tok in names:
            return names[tok]
        if tok in s.aliases and text[b:b + 1] == '.':
            return local.get(tok, self.alias(s, tok))
        if base in local:
            return local[base] + mark
        return self.generated(s, tok, parts)

    def after_dot(self, s, text, a, b, tok, parts, local):
        """a qualified name, or a field"""
        if a > 1 and text[a - 2] not in ' \t\n(':
            q = re.search(r'([^ \t\n(){}\[\];,."⌜⌝λ]+)\.$', text[:a])
            alias = q.group(1) if q else None
            if alias in s.aliases:
                return self.new_of(('def', s.aliases[alias], tok)) or tok
            return self.generated(s, tok, parts) if alias == 'tie' else tok
        r = self.field(s, text, a - 1, tok)
        if r:
            return r
        base = tok.rstrip(MARKS)
        if base == 'before' and not re.search(r'\.args \.$', text[:a]):
            return tok
        g = self.generated(s, tok, parts, text[b:])
        if g != tok:
            return g
        return local[base] + tok[len(base):] if base in local else tok

    def in_record(self, s, text, a, b, tok):
        """a label of a record literal, or a field in the declaration of its record"""
        if re.match(r' =(?![=])', text[b:]) and re.search(r'[{;]\s*$', text[:a]):
            r = self.label(s, text, a, tok)
            if r is not None:
                return r
        if re.search(r'(?:^|\n) +(?:pub )?$', text[:a]) and re.match(r' :(\s|$)', text[b:]):
            r = self.declared(s, text, a, tok)
            if r is not None:
                return r
        return self.inside_record(s, text, a, tok)

    def alias(self, s, tok):
        key = s.aliases[tok]
        if key[2].split('/')[-1] != tok:
            return tok
        return self.t.file.get(key, key[2]).split('/')[-1]

    # -- fields

    def field_rules(self, old):
        return [r for r in self.t.fields if r[2] == old]

    def field(self, s, text, dot, tok):
        rules = [r for r in self.field_rules(tok) if self.sees(s.crate, r[0])]
        if not rules:
            return None
        if s.mod.endswith('Proof') and re.match(r' \.(ensures|result|given|last)\b', text[dot + 1 + len(tok):]):
            return None
        owners = [o for o in self.owner[tok] if self.sees(s.crate, o[0])]
        recv = receiver(text, dot)
        for c, t, old, new, pattern in rules:
            for alt in pattern.split(' || ') if pattern else []:
                where, _, rx = alt.rpartition(' : ')
                if where and not re.search(where, s.rel):
                    continue
                if re.fullmatch(rx, recv):
                    return new
        if s.mod.endswith('Proof') and recv in ('.args', 'a'):
            return None
        plain = [r for r in rules if not r[4]]
        if plain and (len(owners) == 1 or all(any(r[0] == o[0] and r[1] == o[1] for r in plain) for o in owners) and len({r[3] for r in plain}) == 1):
            return plain[0][3]
        return None

    def sees(self, crate, other):
        return crate == other or other in self.below.get(crate, ())

    def label(self, s, text, a, tok):
        rules = self.field_rules(tok)
        labels = literal_labels(text, a)
        if not rules:
            return None if labels is None else tok
        for c, t, old, new, pattern in rules:
            if labels is not None and labels == self.labels.get((c, t)):
                return new
        if labels is None:
            return None
        cands = [o for o in self.owner[tok] if labels <= self.labels[o]]
        for c, t, old, new, pattern in rules:
            if cands == [(c, t)]:
                return new
        return tok

    def record_at(self, text, a):
        """the record whose declaration has the place a"""
        m = None
        for m in re.finditer(r'(?:^|\n)( *)(?:pub )?record (\S+)[^\n]*', text[:a]):
            pass
        if not m:
            return None
        for line in text[m.end():a].split('\n')[1:]:
            if line.strip() and len(line) - len(line.lstrip()) <= len(m.group(1)):
                return None
        return m.group(2)

    def declared(self, s, text, a, tok):
        t = self.record_at(text, a)
        if not t:
            return None
        for c, ty, old, new, pattern in self.field_rules(tok):
            if (c, ty) == (s.crate, t):
                return new
        return tok if tok in self.labels.get((s.crate, t), ()) else None

    def inside_record(self, s, text, a, tok):
        """an earlier field of the record that is being declared"""
        rules = [r for r in self.field_rules(tok) if r[0] == s.crate]
        t = self.record_at(text, a) if rules else None
        for c, ty, old, new, pattern in rules:
            if ty == t:
                return new
        return None

    # -- comments: names between backticks

    def comment(self, s, text, names):
        def one(m):
            w = m.group(1)
            return '`' + self.spoken(s, w, names) + '`'
        return re.sub(r'`([^`\s]+)`', one, text)

    def spoken(self, s, w, names):
        if w in names:
            return names[w]
        q = re.fullmatch(r'([A-Z]\w+)\.([^\s.]+)', w)
        if q:
            keys = [k for k in self.unique.get(q.group(2), ()) if k[2] == q.group(1)]
            if s is not None and len(keys) > 1:
                keys = [k for k in keys if k[0] == s.crate] or keys
            if len(keys) == 1:
                k = keys[0]
                return self.t.file.get(k, k[2]) + '.' + self.t.defs.get((k, q.group(2)), q.group(2))
            return w
        q = re.fullmatch(r'([a-z_]+)::(\w+)', w)
        if q and q.group(1) in {k[0] for k in self.src}:
            new = self.t.type.get((q.group(1), q.group(2))) or self.t.fn.get((q.group(1), 'lib', q.group(2))) or q.group(2)
            return self.t.crate.get(q.group(1), q.group(1)) + '::' + new
        keys = self.unique.get(w, ())
        if len(keys) == 1:
            return self.t.defs.get((list(keys)[0], w), w)
        types = [(c, t) for (c, t) in self.t.type if t == w]
        if len(types) == 1 and not keys:
            return self.t.type[types[0]]
        fns = [k for k in self.t.fn if k[2].split('::')[-1] == w]
        if len(fns) == 1 and not keys:
            return self.t.fn[fns[0]].split('::')[-1]
        if w in self.t.crate:
            return self.t.crate[w]
        return w
