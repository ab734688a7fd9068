#!/usr/bin/env python3
"""Makes sample dumps for reading with class summaries, and what the readings must give.

usage: samples/make_classes.py samples/classes

Writes NAME.phd for each sample, and `expected`: for each dump, readings with several capacities (rows, references, entries of the
list), each with its answer and the entries. The expected entries follow from the records that were added to a dump (dump.py), by the
rules of docs/FORMAT.md 5.3 and 5.4.
"""
import pathlib
import sys

from dump import ROW, Dump

KIND, ADDRESS, CLASS, COUNT, SIZE, TYPE, OFFSET = map(ROW.index, ("kind", "address", "class_", "count", "size", "type", "offset"))
CLASS_ROW, OBJECT, PRIMITIVE_ARRAY = 1, 2, 4


def empty_dump(**header):
    """Returns a dump without records, with capacity for any number of them."""
    return Dump(row_capacity=10**6, ref_capacity=10**6).with_header(**header)


# ---- what a reading gives


def key_of(row):
    """Returns the class word or primitive type of a row, and the mark."""
    return (row[TYPE], 1) if row[KIND] == PRIMITIVE_ARRAY else (row[CLASS], 0)


def entries_of(rows):
    """Returns the class summaries of rows: class word or primitive type, mark, instances, bytes, references, waiting."""
    sizes = {}
    for row in rows:
        if row[KIND] == CLASS_ROW:
            sizes.setdefault(row[ADDRESS], row[SIZE])
    entries = {}
    for row in rows:
        if row[KIND] != CLASS_ROW:
            entry = entries.setdefault(key_of(row), [0, 0, 0, 0])
            size = sizes.get(row[CLASS]) if row[KIND] == OBJECT else 4 * row[SIZE]
            for i, n in enumerate((1, size or 0, row[COUNT], int(size is None))):
                entry[i] += n
    return [(*key, *numbers) for key, numbers in entries.items()]


def reading(d, row_capacity, ref_capacity, list_length):
    """Returns reply, place, and how many rows are stored."""
    keys, refs = set(), 0
    for i, row in enumerate(d.rows):
        key = set() if row[KIND] == CLASS_ROW else {key_of(row)}
        refs += row[COUNT]
        if i == row_capacity:
            return 13, row[OFFSET], i
        if refs > ref_capacity:
            return 14, row[OFFSET], i
        if len(keys | key) > list_length:
            return 20, row[OFFSET], i
        keys |= key
    reply, place, *_ = d.answer_at(len(d.bytes))
    return reply, place, len(d.rows)


def lines_of(d, capacities):
    for rows, refs, length in capacities:
        reply, place, stored = reading(d, rows, refs, length)
        entries = entries_of(d.rows[:stored])
        yield f"read rows {rows} refs {refs} list {length}"
        yield f"reply {reply} place {place} rows {stored} refs {sum(row[COUNT] for row in d.rows[:stored])} entries {len(entries)}"
        for entry in entries:
            yield " ".join(["entry", *map(str, entry)])


# ---- the samples


def where_classes_are():
    """Yields dumps with a class row before, after and between its objects, twice with one address, and never."""

    def objects(d, class_, count):
        for _ in range(count):
            d.long(d.address + 16, class_, refs=[d.address + 32] * (d.address % 3), code=3)
        return d

    A, B = 0x1000, 0x2000
    yield "before", objects(objects(empty_dump().klass(A, b"A", 24, code=1).klass(B, b"B", 40, code=1), A, 2), B, 1).end()
    yield "after", objects(objects(empty_dump(), A, 2), B, 1).klass(A, b"A", 24, code=1).klass(B, b"B", 40, code=1).end()
    yield "between", objects(objects(empty_dump(), A, 2).klass(A, b"A", 24, code=1), A, 3).end()
    yield "never", objects(objects(empty_dump().klass(B, b"B", 40, code=1), A, 3), B, 1).end()
    twice = objects(empty_dump(), A, 1).klass(A, b"A", 24, code=1).klass(A, b"Again", 99)
    yield "twice", objects(twice, A, 2).klass(A, b"Last", 7, code=3).end()
    yield "size-zero", objects(empty_dump().klass(A, b"A", 0, code=1), A, 2).end()
    yield "cut-late-class", objects(objects(empty_dump(), A, 2), B, 1).klass(A, b"A", 24, code=1)


def which_entry():
    """Yields dumps whose rows share entries, or only seem to."""
    d = empty_dump().klass(0x1000, b"A", 24, code=1).long(0x1010, 0x1000, [0x1000])
    yield "object-and-array", d.array(0x1020, 0x1000, [0x1010] * 3, size=6, length=5).long(0x1030, 0x1000).end()
    d = empty_dump().klass(0x1000, b"A", 24, code=1).array(0x1010, 0x2000, size=5).array(0x1020, 0x2000, [0x1000], size=4)
    yield "array-without-class", d.long(0x1030, 0x2000).end()
    d = empty_dump()
    for i in (3, 1, 7, 0, 1, 2, 6, 5, 4, 3, 7):
        d.primitive(d.address + 16, i, i, 4 + i)
    yield "each-type", d.end()
    d = empty_dump()
    for i in range(3):
        d.long(d.address + 16, i).primitive(d.address + 16, i, 1, 4)
    yield "type-and-class-word", d.klass(0x1000, b"A", 24, code=1).end()
    yield "object-of-address-zero", empty_dump().klass(0, b"Zero", 24).long(0x10, 0).long(0x20, 0x20).end()
    yield "classes-alone", empty_dump().klass(0x1000, b"A", code=1).klass(0x2000, b"B", 40, class_=0x1000, code=1).end()
    yield "no-records", empty_dump().end()


def full_lists():
    """Yields dumps that are read into lists that are too short: after records that need no new entry, and with records at which
    another reply comes first."""
    d = empty_dump().klass(0x1000, b"A", 24, code=1).long(0x1010, 0x1000).long(0x1020, 0x1000, [0x1010, 0x1010])
    d.klass(0x2000, b"B", 8, code=1).array(0x2010, 0x1000, size=4).primitive(0x2020, 1, 3, 6).long(0x2030, 0x2000, [0x2020])
    d.long(0x2040, 0x1000).primitive(0x2050, 2, 3, 6)
    yield "in-the-middle", d.end()
    cut = empty_dump().long(0x10, 0x1000).long(0x20, 0x2000)
    cut.bytes = cut.bytes[:-1]
    cut.rows.pop()
    cut.cuts.pop()
    yield "cut-before-entry", cut
    yield "bad-before-entry", empty_dump().long(0x10, 0x1000).bad_record(12, "04 00 04 00002000 80000000")


def many_entries():
    """Yields a dump of 600 objects and arrays of 60 classes, with the class rows in the middle."""
    d = empty_dump(bits=64)
    words = [0x7_0000_0000 + 0x108 * i for i in range(60)]
    for i in range(300):
        d.long(d.address + 24, words[i * i % 60], [d.address + 8] * (i % 3), code=3, width=3)
    for i, word in enumerate(words):
        d.klass(word, b"K%d" % i, 16 + 8 * (i % 5), code=3)
    for i in range(300):
        (d.array if i % 7 == 3 else d.long)(d.address + 24, words[i % 60], code=3)
    yield "many", d.end()


def samples():
    """Yields the name of each sample, its dump, and the capacities with which it is read."""
    for name, d in [*where_classes_are(), *which_entry(), *full_lists()]:
        n, refs = len(d.rows), len(d.refs)
        lengths = range(len(entries_of(d.rows)) + 2)
        fewer = [(rows, r, length) for rows in range(n) for r in (0, refs) for length in lengths if name == "in-the-middle"]
        yield name, d, [*((n, refs, length) for length in lengths), *fewer]
    for name, d in many_entries():
        n, refs = len(d.rows), len(d.refs)
        yield name, d, [(n, refs, length) for length in (0, 1, 2, 11, 12, 13, 59, 60, 61, 1000)] + [(256, refs, 60), (257, refs, 1), (n, 9, 60)]


folder = pathlib.Path(sys.argv[1])
lines = []
for name, d, capacities in samples():
    (folder / f"{name}.phd").write_bytes(d.bytes)
    lines += [f"dump {name}", *lines_of(d, capacities)]
(folder / "expected").write_text("\n".join(lines) + "\n")
