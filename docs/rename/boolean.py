#!/usr/bin/env python3
"""Replaces `pick`, `both` and `either` by the library's `cond`, `_&&_` and `_||_` in a tree.

    boolean.py TREE

`both a b` becomes `a && b`. The three have the same equations as the library's, so every definition keeps its meaning. Run it after
rename.py, and `rt fmt` after it.
"""
import os, re, sys

from sources import TOKEN, read, strip_comments

# proofs that took a test apart by hand
EDITS = [(
    'phd_check/specs/WellFormed.antt',
    '''  header-bits-good = by-test (eqb (h .bits) 32) true (eqb (h .bits) 64) (all-true-at _ g 0) (λ e _. inl (eqb-true _ _ e)) (λ _ e. inr (eqb-true _ _ e))
''',
    '''  header-bits-good = by (eqb (h .bits) 32) (eqb (h .bits) 64) (all-true-at _ g 0) (λ e. inl (eqb-true _ _ e)) (λ e. inr (eqb-true _ _ e))
    where
      by : (a b : Bool) → a || b ≡ true → (a ≡ true → ValidBits (h .bits)) → (b ≡ true → ValidBits (h .bits)) → ValidBits (h .bits)
      by true b e p q = p refl
      by false b e p q = q e
''')]

OPERATORS = {'both': '&&', 'either': '||'}
IMPORT = {'pick': 'cond', 'both': '_&&_', 'either': '_||_'}


def atom(text, i):
    """the end of the atom that begins at i"""
    if text[i] in '([{':
        depth = 0
        while True:
            if text[i] in '([{':
                depth += 1
            elif text[i] in ')]}':
                depth -= 1
                if depth == 0:
                    return i + 1
            i += 1
    m = TOKEN.match(text, i)
    end = m.end()
    while text[end:end + 1] == '.' and TOKEN.match(text, end + 1):
        end = TOKEN.match(text, end + 1).end()
    return end


def bare(a):
    """an argument without its parentheses, where it is an application"""
    if a.startswith('(') and atom(a, 0) == len(a):
        inner = a[1:-1]
        flat, depth = [], 0
        for m in re.finditer(r'[()]|[^\s()]+', inner):
            t = m.group(0)
            if t == '(':
                depth += 1
            elif t == ')':
                depth -= 1
            elif depth == 0:
                flat.append(t)
        if not any(t in ('&&', '||', '≡', '→', 'λ', 'let', 'do', '++', '∷', '+', '-', '*', '/', '%', '^', '<', '≤', '×', '⊎', '∙', ',') or t.startswith('λ') for t in flat):
            return inner
    return a


def rewrite(text):
    out, i = '', 0
    pattern = re.compile(r'(?<![^\s(){}\[\];,"⌜⌝λ])(both|either)(\s+)(?=[^\s)=≡→:;,}|])')
    while True:
        m = pattern.search(text, i)
        if not m:
            return out + text[i:]
        j = m.end()
        e = atom(text, j)
        gap = re.match(r'\s+', text[e:])
        if not gap:
            out += text[i:m.end()]
            i = m.end()
            continue
        k = e + gap.end()
        f = atom(text, k)
        a, b = rewrite(text[j:e]), rewrite(text[k:f])
        new = bare(a) + gap.group(0) + OPERATORS[m.group(1)] + ' ' + bare(b)
        if re.match(r'\s*∷', text[f:]) or re.search(r'∷\s*$', text[:m.start()]):
            new = '(' + new + ')'
        out += text[i:m.start()] + new
        i = f


def imports(text, rt, used):
    """moves the names from Numbers to the library's Bool"""
    lines, wanted = text.split('\n'), []
    for n, line in enumerate(lines):
        m = re.match(r'^((?:ghost )?use Rattle·\w+(?:·specs)?\.specs\.Numbers\.\{)([^}]*)(\};?)$', line)
        if m:
            items = [x.strip() for x in m.group(2).split(',')]
            keep = [x for x in items if x.split(' as ')[0] not in IMPORT]
            lines[n] = m.group(1) + ', '.join(keep) + m.group(3) if keep else None
    lines = [l for l in lines if l is not None]
    wanted += used
    if wanted:
        lines = add(lines, rt, wanted)
    return '\n'.join(lines)


def add(lines, rt, wanted):
    head = 'ghost use ' if rt else 'use '
    end = ';' if rt else ''
    for n, line in enumerate(lines):
        m = re.match(r'^((?:ghost )?use mathlib\.Core\.Bool\.\{)([^}]*)(\};?)$', line)
        if m:
            items = [x.strip() for x in m.group(2).split(',')]
            lines[n] = m.group(1) + ', '.join(items + [w for w in dict.fromkeys(wanted) if w not in items]) + m.group(3)
            return lines
    new = head + 'mathlib.Core.Bool.{' + ', '.join(dict.fromkeys(wanted)) + '}' + end
    at = max([n for n, l in enumerate(lines) if re.match(r'^(ghost )?use mathlib\.Core', l)] or
             [n for n, l in enumerate(lines) if re.match(r'^(--|//)', l)][:1] or [0]) + 1
    if not any(re.match(r'^(ghost )?use mathlib\.Core', l) for l in lines):
        at = next(n for n, l in enumerate(lines) if re.match(r'^(ghost )?use ', l))
    return lines[:at] + [new] + lines[at:]


def ghost(code, rt):
    """the definitions' language in a file: all of it, or what stands in a contract"""
    return ' '.join(re.findall(r'⌜[^⌝]*⌝', code)) if rt else code


def run(root):
    for base, dirs, names in os.walk(os.path.join(root, 'crates')):
        for n in sorted(names):
            p = os.path.join(base, n)
            if not n.endswith(('.antt', '.rt', '.edit')):
                continue
            text = read(p)
            rt = n.endswith('.rt')
            if n.endswith('.edit') and not re.search(r'^file: .*\.antt$', text, re.M):
                continue
            own = p.endswith('specs/Numbers.antt')
            if not own and not n.endswith('.edit') and not re.search(r'use Rattle·\w+(·specs)?\.specs\.Numbers\.\{[^}]*\b(pick|both|either)\b', text):
                continue
            comment = r'//[^\n]*' if rt else r'(?:^|(?<=[ \n]))--[^\n]*'
            kept = []

            def keep(m):
                kept.append(m.group(0))
                return '\x01%d\x01' % (len(kept) - 1)
            code = re.sub(comment, keep, text)
            uses = []

            def use(m):
                uses.append(m.group(0))
                return '\x02%d\x02' % (len(uses) - 1)
            code = re.sub(r'^(?:pub |ghost |unfoldable )*use [^\n]*', use, code, flags=re.M)
            if own:
                code = re.sub(r'(\x01\d+\x01\n)?abbrev pub pick .*?\n\n', '', code, flags=re.S)
                code = re.sub(r'abbrev pub (both|either) .*?\n\n', '', code, flags=re.S)
            if rt:
                code = re.sub(r'⌜[^⌝]*⌝', lambda m: rewrite(re.sub(r'(?<![\w.·-])pick(?![\w-])', 'cond', m.group(0))), code)
            else:
                code = rewrite(re.sub(r'(?<![\w.·-])pick(?![\w-])', 'cond', code))
            code = code.replace('cond {X = ', 'cond {A = ')
            for name, old, new in EDITS:
                if p.endswith(name):
                    assert old in code
                    code = code.replace(old, new)
            code = re.sub(r'\x02(\d+)\x02', lambda m: uses[int(m.group(1))], code)
            code = re.sub(r'\x01(\d+)\x01', lambda m: kept[int(m.group(1))], code)
            if not n.endswith('.edit'):
                bare_code = strip_comments(code, rt)
                used = [n for n, t in (('cond', 'cond'), ('_&&_', '&&'), ('_||_', '||')) if re.search(r'(?<=[\s(])' + re.escape(t) + r'(?=[\s)])', ghost(bare_code, rt))]
                code = imports(code, rt, used)
            with open(p, 'w', encoding='utf-8') as f:
                f.write(code)


if __name__ == '__main__':
    run(sys.argv[1])
