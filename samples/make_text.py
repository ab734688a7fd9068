#!/usr/bin/env python3
"""Makes the sample dumps of a program crate that writes their records as classic text, and the output that it must print.

usage: samples/make_text.py crates/text_samples

Writes data/*.phd, args and stdout into that folder, the same on every run. The text follows from the records that were added to a
dump (text.py); for refused tables this file has the reply and the row.
"""
import sys

from class_index import many_rows
from crate import fill_crate
from dump import EXAMPLE, HASHED, NONE, OPENING, WIDTH, file_label
from text import REFS, ROWS, TYPES, PassedTables, empty_dump, refused, written

# The text of the worked example of docs/FORMAT.md 9.
EXAMPLE_TEXT = """\
// Version: Test
0x00001000 [0] CLS A
0x00000000
0x00001010 [16] OBJ A
0x00001000 0x00001020
0x00001020 [16] OBJ A
0x00001000
0x00001030 [24] OBJ [C
0x00000000
// Breakdown - Classes: 1, Objects: 2, ObjectArrays: 0, PrimitiveArrays: 1
// EOF:  Total 'Objects',Refs(null) : 4,1(0)
"""

# Widths for any gap and any reference; for any gap and any length.
WIDE, FAR = dict(code=3, width=3), dict(code=3)


def one_class(**header):
    """Returns a dump with the class A, of 16 bytes, at 0x1000."""
    hash = dict(hash=0xC1A5) if header.get("all_hashed") else {}
    return empty_dump().with_header(**header).klass(0x1000, b"A", code=1, **hash)


def example():
    d = one_class().medium(0x1010, 0x1000, [0x1020])
    return d.short(0x1020, 0).primitive(0x1030, type=1, length=3, size=6)


def headers():
    d = example().end()
    assert d.bytes == EXAMPLE and PassedTables(d).text() == EXAMPLE_TEXT
    yield "example", written(d)
    yield "example-more", written(example().end(b"\x03\x80more"))
    vms = dict(none=None, empty=b"", spaces=b"  IBM J9  2.9 ", bytes=bytes(range(0x20, 0x7F)), long=b"0123456789" * 30)
    for name, vm in vms.items():
        yield "vm-" + name, written(one_class(vm=vm).medium(0x1010, 0x1000).end())
    yield "no-records", written(empty_dump().with_header().end())
    yield "no-records-no-vm", written(empty_dump().with_header(64, all_hashed=True, openj9=False, vm=None).end())


# ---- addresses


def digits(bits):
    """Returns a dump with every digit at every place of class words, and at all but the last of addresses and references."""
    d, count = empty_dump().with_header(bits), bits // 4

    def rotated(i):
        return int(("0123456789ABCDEF" * 3)[i % 16 :][:count], 16)

    for i in range(16):
        d.klass(rotated(i) & -4, b"C%X" % i, i, rotated(i + 5), [rotated(i + 1) & -4, rotated(i + 9) & -4], **WIDE)
    d.long(rotated(10) & -4, rotated(12) & -4, [rotated(15) & -4], **WIDE)
    d.array(rotated(13) & -4, rotated(8) & -4, [rotated(14) & -4], 5, **WIDE)
    return d.primitive(rotated(11) & -4, 7, 3, 6, **FAR)


def edges(bits):
    """Returns a dump with the least and the greatest addresses, references and class words; every kind of row is at address 0."""
    top = 2**bits - 4
    d = empty_dump().with_header(bits).klass(0, b"Zero", 24, 2**bits - 1, [4, top], **WIDE).klass(top, b"Top", 40, top, **WIDE)
    for a in (0, top):
        d.long(a, 0, [top, 4], **WIDE).long(a, top, [4, top], **WIDE)
        d.array(a, 0, [4], 1, **WIDE).array(a, top, [top], 2, **WIDE).primitive(a, 1, 2, 3, **FAR)
    return d


def addresses():
    for bits in (32, 64):
        yield f"digits-{bits}", written(digits(bits).end())
        yield f"edges-{bits}", written(edges(bits).end())


# ---- classes


def classes():
    d = empty_dump().with_header().medium(0x1000, 0x2000, [0x1010], code=1).array(0x1010, 0x2010, [0x1000], 9).short(0x1020, 0)
    after = d.klass(0x2000, b"Late", 48, code=2).klass(0x2010, b"Later", 56).end()
    yield "class-after", written(after)
    yield "class-cut-off", refused(PassedTables(after, len(after.bytes) - 2), 18, 1)

    d = one_class().klass(0x1000, b"B", 32, 0x1000).klass(0x1010, b"C", 8).klass(0x1010, b"[C", 12)
    yield "class-twice", written(d.medium(0x1020, 0x1000).array(0x1030, 0x1000).medium(0x1040, 0x1010).end())

    d = empty_dump().with_header().medium(0x1000, 0x1100, code=1).array(0x1000, 0x1100, [], 2).primitive(0x1000, 4, 5, 3)
    d.klass(0x1000, b"There", 20).klass(0x1100, b"Other", 28).medium(0x1000, 0x1000).array(0x1000, 0x1000, [], 7)
    yield "class-at-object", written(d.klass(0x1100, b"Again", 1).end())

    d = one_class().klass(0x1010, b"B", 32, 0x1000).klass(0x1020, b"C", 64, 0xBAD).klass(0x1030, b"D", 72, 2**32 - 1)
    yield "class-superclass", written(d.medium(0x1040, 0x1020).medium(0x1050, 0x1030).end())

    d = empty_dump().with_header(64).klass(0x1000, b"Low", 8, code=1).klass(0x100001000, b"High", 16, **WIDE)
    d.long(0x2000, 0x100001000, **WIDE).long(0x2010, 0x1000).array(0x2020, 0x100001000, [], 1)
    yield "class-high", written(d.end())

    for length in (255, 256, 65535):
        name = (bytes(range(0x21, 0x7F)) * 700)[:length]
        d = one_class().klass(0x1010, name, 77).array(0x1020, 0x1010, [0x1030], 4)
        yield f"class-name-{length}", written((d if length > 256 else d.medium(0x1030, 0x1010)).end())


# ---- the class of the row before


def neighbours():
    d = one_class().klass(0x1010, b"B", 32).klass(0x1020, b"C", 48)
    for i in range(12):
        form = d.medium if i % 3 else d.array
        form(d.address + 0x10, 0x1000 + 0x10 * (i % 2))
    yield "before-alternates", written(d.end())

    # class rows, primitive arrays and class rows at the same address between objects of one class
    d = one_class().medium(0x1010, 0x1000).klass(0x1020, b"B", 32).medium(0x1030, 0x1000).primitive(0x1040, 1, 3, 6)
    d.medium(0x1050, 0x1000).klass(0x1000, b"Again", 40, 0x1000, code=1).medium(0x1060, 0x1000, code=1)
    yield "before-class-between", written(d.array(0x1070, 0x1000, [], 2).array(0x1080, 0x1020, [], 2).medium(0x1090, 0x1020).end())

    # the same with the class rows last: the first of two with one address
    d = empty_dump().with_header().medium(0x1000, 0x2000, code=1).medium(0x1010, 0x2000).array(0x1020, 0x2010, [], 3)
    d.medium(0x1030, 0x2010).medium(0x1040, 0x2000).klass(0x2010, b"First", 8, code=2).klass(0x2000, b"Late", 16)
    yield "before-classes-last", written(d.klass(0x2010, b"Second", 24).klass(0x2000, b"Later", 32).end())

    # the class of the row before is there, and the next one is not; the class word 0 is not there either
    for word in (0x1004, 0x2000, 0):
        d = one_class().medium(0x1010, 0x1000).medium(0x1020, 0x1000)
        yield f"before-then-missing-{word:x}", refused(d.medium(0x1030, word).medium(0x1040, 0x1000).end(), 18, 3)
    yield "before-none-missing-0", refused(one_class().primitive(0x1010, 1, 3, 6).medium(0x1020, 0).end(), 18, 2)


# ---- arrays

NAMES = b"java/lang/String", b"[I", b"[[I", b"[Ljava/lang/String;", b"[", b"A[", b"L", b"LA;", b";", b"~!"


def arrays():
    d = empty_dump().with_header()
    for i, name in enumerate(NAMES):
        d.klass(0x1000 + 0x10 * i, name, 8 + i, code=1)
    for i in range(len(NAMES)):
        d.array(0x2000 + 0x10 * i, 0x1000 + 0x10 * i, [0x2000], i, code=2, width=1)
    yield "array-types", written(d.medium(0x3000, 0x1010, code=1).medium(0x3010, 0x1030).end())
    yield "array-class-0", written(one_class().klass(0, b"Zero", 4, code=1).array(8, 0, [4], 3).medium(16, 0).end())


def primitives(before=(), after=(), **header):
    """Returns a dump with a primitive array of each type, and classes of these names before and after the arrays."""
    d = one_class(**header)
    for name in before:
        d.klass(d.address + 0x10, name, 4)
    for type in range(8):
        d.primitive(d.address + 0x10, type, type, 2 * type + 1)
    for name in after:
        d.klass(d.address + 0x10, name, 4)
    return d


def primitive_arrays():
    types = [name.encode() for name in TYPES]
    near = [b"[", b"[CC", b"xC", b"C", b"[[C", b"[c", b"[C;", b"Z[", b"I", b"[J]", b"[LD;", b"x[B"]
    yield "primitive-no-class", written(primitives().end())
    yield "primitive-class", written(primitives(types).end())
    yield "primitive-class-64", written(primitives(types[::-1], bits=64).end())
    yield "primitive-class-after", written(primitives((), types).end())
    yield "primitive-class-near", written(primitives(near).end())
    yield "primitive-class-near-first", written(primitives(near + types[::2], types[1::2]).end())
    yield "primitive-class-twice", written(primitives(types[:5] + types[::-1], types).end())
    d = empty_dump().with_header().klass(0, b"[C", 4).klass(4, b"[C", 4).klass(4, b"[B", 4).klass(8, b"[B", 4)
    yield "primitive-class-0", written(d.primitive(12, 1, 1, 1).primitive(16, 4, 1, 1).array(20, 4, [], 1).end())


# ---- hashes


def hashes():
    for bits in (32, 64):
        d = one_class(bits=bits, all_hashed=True).medium(0x1010, 0x1000, [0x1020], hash=0).short(0x1020, 0, [0x1010], hash=0xFFFF)
        d.long(0x1030, 0x1000, [0x1000], hash=1).array(0x1040, 0x1000, [0x1030], 7, hash=2)
        d.primitive(0x1050, 6, 9, 11, hash=3).long_primitive(0x1060, 7, 9, 20, hash=4).klass(0x1070, b"[J", 8, hash=5)
        yield f"all-hashed-{bits}", written(d.end())
    d = one_class().klass(0x1008, b"Moved", 20, hash=2**32 - 1)
    for hash in (NONE, HASHED, 0, 2**32 - 1):
        d.long(d.address + 8, 0x1008, [0x1000], hash=hash).array(d.address + 8, 0x1008, [0x1008], 6, hash=hash)
        d.long_primitive(d.address + 8, 0, 9, 3, hash=hash)
    yield "hashes", written(d.end())


# ---- sizes

CLASS_SIZES = 0, 1, 9, 10, 99, 100, 999, 1000, 2**16, 10**9 - 1, 10**9, 2**31 - 1

ARRAY_SIZES = 0, 1, 2, 3, 24, 25, 249, 250, 2500, 10**9 // 4, 2**30 - 1, 2**30, 2**31, 25 * 10**8 - 1, 25 * 10**8, 2**32 - 1


def sizes():
    d = empty_dump().with_header()
    for i, size in enumerate(CLASS_SIZES):
        a = 0x10 * i
        d.klass(a, b"Size%d" % i, size).medium(a + 4, a, [a + 8]).array(a + 8, a, [], i)
    yield "bytes-objects", written(d.end())
    d = one_class()
    for i, size in enumerate(ARRAY_SIZES):
        d.array(d.address + 8, 0x1000, [], size).primitive(d.address + 8, i % 8, 1, size)
        d.long_primitive(d.address + 8, 7 - i % 8, 1, size, words=True)
    yield "bytes-arrays", written(d.end())


def counted(classes, objects, arrays, primitives, each=0):
    """Returns a dump with so many rows of each kind, each object with so many references."""
    d = empty_dump().with_header(vm=None)
    for i in range(classes):
        d.klass(d.address + 4, b"K", i)
    for i in range(objects):
        d.long(d.address + 4, 4, [4] * each, width=1)
    for i in range(arrays):
        d.array(d.address + 4, 4, [], i)
    for i in range(primitives):
        d.primitive(d.address + 4, i % 8, 1, i)
    return d


def counts():
    for rows in [
        (9, 0, 0, 0), (9, 1, 0, 0), (1, 9, 10, 11), (12, 10, 9, 8), (10, 13, 14, 9), (99, 0, 0, 0), (100, 0, 0, 0),
        (1, 98, 0, 0), (1, 99, 0, 0), (1, 100, 1, 1), (1, 0, 99, 2), (1, 2, 100, 0), (1, 0, 0, 99), (1, 0, 0, 100),
    ]:  # fmt: skip
        yield "rows-" + "-".join(map(str, rows)), written(counted(*rows).end())
    for each, objects in (3, 3), (5, 2), (33, 3), (50, 2), (80, 2):
        yield f"refs-{each * objects}", written(counted(1, objects, 0, 0, each).end())
    d = empty_dump().with_header(64)
    for n in (0, 1, 3, 7, 40):
        refs = [0x2000 + 8 * k for k in range(n)]
        d.klass(0x1000 + n * 8, b"K%d" % n, n, refs=refs, **WIDE)
        d.long(0x1400 + n * 8, 0x1000, refs, **WIDE).array(0x1800 + n * 8, 0x1000, refs[::-1], n, **WIDE)
    yield "refs-each", written(d.end())
    d = one_class().medium(0x1010, 0x1000).short(0x1020, 0, [0x1000, 0x1010, 0x1020])
    yield "refs-short-medium", written(d.medium(0x1030, 0x1000, [0x1000 + 4 * n for n in range(7)]).short(0x1040, 0).end())


# ---- nulls


def nulls_of(*arrays, **header):
    """Returns a dump with the class A and arrays, each by its number of references and its true length."""
    d, hash = one_class(**header), dict(hash=7) if header.get("all_hashed") else {}
    for count, length in arrays:
        d.array(d.address + 0x10, 0x1000, [0x1000 + 4 * n for n in range(count)], 9, length, **hash)
    return d


def with_totals(sample, totals):
    """Returns the sample, and checks that the last line of its text ends in these totals."""
    assert sample[1][-4].endswith(f" : {totals}"), sample[1][-4]
    return sample


def nulls():
    # an array of length 5 with two references lists two; it counts 3 nulls and 5 in all
    yield "nulls-some", with_totals(written(nulls_of((2, 5)).end()), "2,5(3)")
    yield "nulls-none", with_totals(written(nulls_of((0, 0), (1, 1), (3, 3)).end()), "4,4(0)")
    yield "nulls-all", with_totals(written(nulls_of((0, 1), (0, 4)).end()), "3,5(5)")
    d = nulls_of((1, 4), (0, 2**31 - 1), (2, 2), (3, 10))
    yield "nulls-several", with_totals(written(d.end()), "5,2147483663(2147483657)")
    for bits in (32, 64):
        d = nulls_of((2, 6), bits=bits, all_hashed=True).medium(0x1020, 0x1000, [0x1000, 0x1010], hash=1)
        yield f"nulls-all-hashed-{bits}", with_totals(written(d.end()), "3,8(4)")
    # neither the lengths of other rows nor their references count as nulls
    d = nulls_of((1, 3)).primitive(0x1020, 1, 100, 50).long_primitive(0x1030, 7, 90, 2, hash=HASHED)
    d.klass(0x1040, b"B", 8, refs=[0x1000, 0x1010]).medium(0x1050, 0x1040, [0x1010]).array(0x1060, 0x1040, [0x1050], 3, 2)
    yield "nulls-and-others", with_totals(written(d.primitive(0x1070, 0, 2**31 - 1, 9, code=2).end()), "8,8(3)")
    # totals with each number of digits
    for count, length in (1, 9), (1, 10), (1, 11), (2, 100), (0, 9), (0, 10), (0, 10**9 - 1), (0, 10**9), (1, 10**9):
        sample = written(nulls_of((count, length)).end())
        yield f"nulls-{length}-less-{count}", with_totals(sample, f"2,{length}({length - count})")
    # sums over 32 bits
    for arrays in (2, 3, 5, ROWS - 1):
        total = arrays * (2**31 - 1)
        sample = written(nulls_of(*[(0, 2**31 - 1)] * arrays).end())
        yield f"nulls-most-{arrays}", with_totals(sample, f"{arrays + 1},{total}({total})")
    # a dump that is cut has the nulls of the rows before the cut; changed rows have the nulls of the rows as they are passed
    d = nulls_of((2, 5), (1, 4)).end()
    yield "nulls-cut", with_totals(written(PassedTables(d, len(d.bytes) - 2)), "2,5(3)")
    yield "nulls-changed", with_totals(written(PassedTables(d).change(1, length=7)), "3,11(8)")
    yield "nulls-none-left", with_totals(written(PassedTables(d).change(1, length=2).change(2, length=1)), "3,3(0)")
    for length in (0, 1, 2**31, 2**32 + 5, 2**64 - 1):
        yield f"bad-array-length-{length:x}", refused(PassedTables(d).change(1, length=length), 16, 1)


# ---- rows whose class is missing


def missing_classes():
    def rows(class_, form, i):
        """Returns a dump with the class A and four records: number i has the class word `class_`, the others have A or none."""
        d = one_class()
        for k in range(4):
            if k == i:
                (d.array if form == "array" else d.long)(d.address + 0x10, class_)
            elif k % 2:
                d.primitive(d.address + 0x10, k, k, k)
            else:
                d.long(d.address + 0x10, 0x1000)
        return d.end()

    for form in ("object", "array"):
        for i in range(4):
            yield f"class-missing-{form}-{1 + i}", refused(rows(0x2000, form, i), 18, 1 + i)
        yield f"class-missing-{form}-odd", refused(rows(0x1001, form, 2), 18, 3)
        yield f"class-missing-{form}-null", refused(rows(0, form, 1), 18, 2)
    for form in ("object", "array", "primitive"):
        d = one_class()
        if form == "primitive":
            d.primitive(0x1010, 1, 1, 1)
        else:
            (d.long if form == "object" else d.array)(0x1010, 0x1000)
        yield f"class-missing-at-{form}", refused(d.long(0x1020, 0x1010).end(), 18, 2)
    first = empty_dump().with_header().long(0x1000, 0x2000, code=1).klass(0x1010, b"A").long(0x1020, 0x1010)
    yield "class-missing-first", refused(first.end(), 18, 0)
    yield "class-missing-two", refused(one_class().array(0x1010, 0x2000).long(0x1020, 0x3000).end(), 18, 1)
    yield "class-missing-superclass", refused(empty_dump().with_header().klass(8, b"A", 4, 4).long(12, 4).end(), 18, 1)
    high = empty_dump().with_header(64).klass(0x1000, b"A", 8, code=1).long(0x1010, 0x1000).long(0x1020, 0x100001000)
    yield "class-missing-high", refused(high.end(), 18, 2)
    low = empty_dump().with_header(64).klass(0x100001000, b"A", 8, **WIDE).long(0x2000, 0x100001000, **WIDE).array(0x2010, 0x1000)
    yield "class-missing-low", refused(low.end(), 18, 2)


# ---- dumps that are cut or refused: the text of the records before


def cuts():
    d = example().end()
    for length in (0, 37):
        yield f"cut-{length}", refused(PassedTables(d, length), 15)
    for length in (38, 57, 64, 65, 66, 73):
        yield f"cut-{length}", written(PassedTables(d, length))
    d = edges(64).end()
    yield "cut-edges", written(PassedTables(d, len(d.bytes) - 40))
    yield "cut-fault-header", refused(empty_dump().bad_header(4, [*OPENING, b"\x00\x00\x00\x05"], EXAMPLE[24:]), 15)
    for reply, checked in (6, "00"), (7, "06 00 04 00000010 00000000 0000"), (8, "84 8000"), (10, "A0"), (12, "20 04 FF"):
        yield f"cut-fault-{reply}", written(one_class().medium(0x1010, 0x1000, [0x1020]).bad_record(reply, checked))
    yield "cut-rows", written(counted(1, ROWS, 0, 0).end())
    yield "cut-refs", written(counted(1, 3, 0, 0, REFS // 2).end())


# ---- tables that are changed: those that are refused with 15, or with 16 and the index of the row, and others


def example_tables():
    """Returns the tables of the worked example: a class, an object with a reference, an object and a primitive array."""
    return PassedTables(example().end())


def bad_headers():
    for bits in (0, 31, 33, 2**32 + 32, 2**64 - 1):
        yield f"bad-bits-{bits:x}", refused(example_tables().change(bits=bits), 15)
    yield "bad-vm-place", refused(example_tables().change(place=2**64 - 1), 15)
    yield "bad-vm-length", refused(example_tables().change(len=200), 15)
    yield "bad-vm-byte", refused(example_tables().change(len=5), 15)
    yield "bad-bits-before-row", refused(example_tables().change(0, kind=9).change(bits=33), 15)
    yield "bad-bits-before-class", refused(example_tables().change(1, class_=4).change(bits=33), 15)


def bad_rows():
    for i, number, n in [
        (0, "kind", 9), (2, "kind", 9), (3, "kind", 9), (1, "kind", 0), (1, "address", 0x1011), (2, "address", 2**32),
        (1, "class_", 2**32), (0, "name_length", 0), (0, "name_place", 2**64 - 1), (0, "size", 2**31), (3, "size", 2**32),
        (3, "type", 8), (2, "first", 0), (1, "count", 2), (1, "hash_kind", 3), (2, "hash", 1), (3, "class_", 0x1000),
    ]:  # fmt: skip
        yield f"bad-row-{i}-{file_label(number)}-{n:x}", refused(example_tables().change(i, **{number: n}), 16, i)
    yield "bad-ref-null", refused(example_tables().change_ref(0, 0), 16, 1)
    yield "bad-ref-odd", refused(example_tables().change_ref(0, 0x1022), 16, 1)
    yield "bad-ref-missing", refused(example_tables().resize(more_refs=-1), 16, 1)
    yield "bad-row-unread", refused(example_tables().resize(more_numbers=WIDTH), 16, 4)
    yield "bad-all-hashed", refused(example_tables().change(all_hashed=1), 16, 0)
    yield "bad-row-before-class", refused(example_tables().change(1, class_=4).change(3, kind=9), 16, 3)
    yield "bad-64-as-32", refused(PassedTables(edges(64).end()).change(bits=32), 16, 0)


def changed_tables():
    yield "changed-bits-64", written(example_tables().change(bits=64))
    yield "changed-openj9", written(example_tables().change(openj9=0))
    yield "changed-no-vm", written(example_tables().change(vm=0, place=2**64 - 1, len=2**64 - 1))
    yield "changed-vm-place", written(example_tables().change(place=2, len=18))
    yield "changed-more-numbers", written(example_tables().resize(WIDTH - 1, 3))
    yield "changed-fewer-rows", written(example_tables().resize(-WIDTH - 1))
    yield "changed-no-rows", written(example_tables().resize(-3 * WIDTH - 1))
    t = example_tables().change(0, offset=2**64 - 1).change(1, offset=0)
    yield "changed-offsets", written(t.change(2, offset=66).change(3, offset=38))
    yield "changed-name", written(example_tables().change(0, name_place=2, name_length=8))
    yield "changed-hash", written(example_tables().change(1, hash_kind=2, hash=2**32 - 1).change(2, hash_kind=1))
    yield "changed-class-address", refused(example_tables().change(0, address=0x1004), 18, 1)
    yield "changed-object-class", refused(example_tables().change(2, class_=0x1010), 18, 2)


def samples():
    for group in (headers, addresses, classes, neighbours, many_rows, arrays, primitive_arrays, hashes, sizes, counts, nulls):
        yield from group()
    for group in (missing_classes, cuts, bad_headers, bad_rows, changed_tables):
        yield from group()


fill_crate(sys.argv[1], ((name + ".phd", *sample) for name, sample in samples()))
