#!/usr/bin/env python3
"""Writes docs/NAMES.md from names.tsv (Rattle), host.tsv (Rust and C), samples.tsv and edits.tsv."""
import collections, os

HERE = os.path.dirname(os.path.abspath(__file__))
HEAD = """# Old names and new

On 2026-11-17 the project's names were replaced by the field's. This page is for reading older notes, patches and prototypes; search it
for an old name. `docs/rename/list.py` makes it from the tables that the renaming uses.

Commit 090d173 is the last with the old names. To bring over a patch that was made before:

    git worktree add ../old 090d173 && cd ../old
    git apply PATCH                                          # or git cherry-pick, git am
    python3 PROJECT/docs/rename/rename.py .                  # PROJECT is a checkout with the new names
    python3 PROJECT/docs/rename/boolean.py .
    rt fmt

and take the new or changed files under `crates/` from there. Names that the patch itself adds keep their spelling; the files in
which the patch is to be merged have new comments too, so take over code, not comments. `rename.py` finds names by what they denote (a
`put` may be `encode_be`, `push` or `write_version`), so the tables below are by crate and file. Three definitions went: `pick`,
`both` and `either` are the library's `cond`, `_&&_` and `_||_` (`boolean.py`).

Patches from before commit 70d65c0 (one reading loop and one table for every format) name files that were gathered there. Bring them to
090d173 first by these moves, then rename:

| in the patch | at 090d173 | now |
|---|---|---|
| `phd/specs/Table`, `Phd.row-width` | `table/specs/Table` | `table/specs/Table` |
| `phd_rows/specs/Rows`, `phd_rows::Row` | `table/specs/Rows`, `table::Row` | `table/specs/Rows`, `table::Row` |
| `phd_rows/specs/Judged`, `phd_rows::Written` | `table/specs/CheckOrder`, `table::Answer` | `table/specs/CheckOrder`, `table::Answer` |
| `phd_rows/specs/Asked` | `table/specs/SizeQuery` | `table/specs/SizeQuery` |
| `phd_rows/specs/Alike` | `table/specs/OffsetsIgnored` | `table/specs/OffsetsIgnored` |
| `classic/specs/Search`, `Firsts`, `Classic.first-row`, `phd_rows::Found` | `table/specs/Search`, `table::Search`; class rows: `classic/specs/ClassRows` | the same |
| `Counts.sum`, sums of `phd_counts/specs/Counting` | `table/specs/Sums` | `table/specs/Sums` |
| `layout/specs/Lent` | `table/specs/Buffer`, `layout/specs/Parts` | `table/specs/Buffer`, `decode/specs/Slices` |
| the reading in `phd/specs/Phd`; `phd_read/specs/Steps`, `Stepping` | `reading/specs/Reading`, `Steps`, `Stepping` | `reader/specs/Reader`, `Steps`, `TableSteps` |
| `phd_read/specs/Cut`, `Missing`, `Offsets`, `Rooms` | `reading/specs/Cut`, `Missing`, `Offsets`, `Capacity` | `reader/specs/Prefixes`, `MissingBytes`, `RowOrigins`, `WithinCapacity` |
| digits in `classic/specs/Classic`, `classic_put/specs/Digits` | `digits/specs/Digits`, `Lengths` | `digits/specs/Digits`, `DigitLengths` |
| `phd_put/specs` and `phd_write/specs`: what speaks of reading | `phd_round_trip/specs` | `phd_round_trip/specs` |
"""


def rows(name):
    with open(os.path.join(HERE, name), encoding='utf-8') as f:
        for line in f:
            if line.strip() and not line.startswith('#'):
                yield line.rstrip('\n').split('\t')


def table(head, lines):
    return '\n'.join(['| ' + ' | '.join(head) + ' |', '|' + '---|' * len(head)] + ['| ' + ' | '.join(l) + ' |' for l in lines]) + '\n'


def code(s):
    return '`' + s + '`'


def main():
    crate = {r[3]: r[4] for r in rows('names.tsv') if r[1] == 'crate'}
    by = collections.OrderedDict()
    # functions of the sample programs that were renamed a second time
    again = {(r[2].split('/')[1], r[0][3:]): r[1][3:] for r in rows('samples.tsv') if r[0].startswith('fn ')}
    files = {}
    for r in rows('names.tsv'):
        step, kind, scope, old, new = r[:5]
        if kind == 'file':
            files[scope.split('/')[0], scope.split('/')[1], old] = new
    for r in rows('names.tsv'):
        step, kind, scope, old, new = r[:5]
        if kind in ('crate', 'local', 'text', 'const'):
            continue
        c = scope.split('/')[0]
        where = '/'.join(scope.split('/')[1:])
        if kind == 'file':
            where, old, new = where, old, new
            kind = 'module' if where == 'src' else 'file'
        elif kind == 'def':
            k, f = where.split('/')
            where = k + '/' + files.get((c, k, f), f)
        elif kind == 'fn' or kind == 'type':
            m = where.split('/')[-1][:-3]
            where = 'src/' + files.get((c, 'src', m), m) + '.rt'
        by.setdefault(c, []).append((kind, where, old, again.get((c, new), new)))
    out = [HEAD, '## Crates\n', table(['old', 'new'], [[code(a), code(b)] for a, b in crate.items()])]
    out.append('Constants: `ROW` is `ROW_WIDTH`, `OPENING` is `MAGIC`. The type `Header` of phd_rows and `Facts` of phd are one, `phd::Header`.\n')
    for c in sorted(by):
        out.append('## %s%s\n' % (crate.get(c, c), ' (was %s)' % c if c in crate else ''))
        order = {'file': 0, 'module': 1, 'type': 2, 'variant': 3, 'field': 4, 'fn': 5, 'def': 6}
        seen = sorted(set(by[c]), key=lambda x: (order[x[0]], x[1], x[2]))
        names = {'fn': 'function', 'def': 'definition'}
        out.append(table(['kind', 'where', 'old', 'new'], [[names.get(k, k), code(w) if w else '', code(o), code(n)] for k, w, o, n in seen]))
    out.append('## Rust and C\n')
    out.append(table(['where', 'old', 'new'], [[r[2], r[0], r[1]] for r in rows('host.tsv') if r[0] != 'old']))
    out.append('## Samples\n')
    out.append(table(['where', 'old', 'new'], [[r[2], r[0].replace('|', ' or '), r[1].replace('|', ' or ')] for r in rows('samples.tsv') if r[0] != 'old']))
    out.append('## Edits that must fail\n')
    out.append(table(['crate', 'old', 'new'], [[r[2], code(r[0]), code(r[1])] for r in rows('edits.tsv') if r[0] != 'old']))
    with open(os.path.join(HERE, '..', 'NAMES.md'), 'w', encoding='utf-8') as f:
        f.write('\n'.join(out))


main()
