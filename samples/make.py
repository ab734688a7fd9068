#!/usr/bin/env python3
"""Makes the sample dumps of a program crate that reads them, and the output that the program must print.

usage: samples/make.py crates/read_samples

Writes data/*.phd, args and stdout into that folder, the same on every run. The expected output follows from the records that were
added to a dump (dump.py); for a refused dump this file has the reply and the field at fault. A sample named `case-x` is case (x)
of crates/phd/specs/ReadCases.antt.
"""
import sys

from crate import fill_crate
from dump import EXAMPLE, HASHED, NONE, OPENING, REFS, ROWS, Dump

# ---- dumps that are read to their end tag


def example():
    d = Dump().with_header().klass(0x1000, b"A", code=1).medium(0x1010, 0x1000, [0x1020])
    return d.short(0x1020, 0).primitive(0x1030, type=1, length=3, size=6)


def forms(shift, **header):
    """Returns a dump with every form in every width of its gap and its references, at addresses around the middle of memory.

    The four dumps with shift 0 to 3 have each pair of width codes, for each form with both codes in its flag byte.
    """
    d = Dump().with_header(**header)
    bits, all_hashed = d.header["bits"], d.header["all_hashed"]
    middle, class_ = 2 ** (bits - 1), 0xC1C2C3C4C5C6C7C8 % 2**bits
    gaps = [0x65, 0x4321, 0x1234567, 0x123456789ABCDEF if bits == 64 else 0x7654321]

    def hash(i):
        return 0xFFFF - len(d.rows) if all_hashed else [NONE, HASHED, 0xFFFFFFFF - len(d.rows)][i % 3]

    def next_address(code):
        return d.address + 4 * gaps[code] * (1 if d.address <= middle else -1)

    def add(form, second, n, code, width, i=0, **more):
        """Adds a record with n references; `second` is the form's argument after the address."""
        a = next_address(code)
        refs = [a + 4 * (gaps[width] - k) * (-1) ** k for k in range(n)]
        form(a, second, refs=refs, code=code, width=width, hash=hash(i), **more)

    d.long(middle, class_, code=3, hash=hash(0))
    for i in range(8):
        add(d.medium, class_ + 1 + i, i, i // 4, i % 4)
    for i in range(8):
        add(d.short, i * 3 % 4, (i + 1) % 4, i // 4, i % 4)
        d.primitive(next_address(i % 4), i, 0x11 + i, 2**32 - 1 - i, i % 4, hash(0))
        words = i % 2 == 1
        d.long_primitive(next_address(bits // 32 + 1 if words else 0), i, 0x70 + i, i, words, hash(i))
    for i in range(4):
        width = (i + shift) % 4
        add(d.long, class_ - i, 2, i, width, i)
        add(d.array, class_ - i, 2, i, width, i + 1, size=2**31 + i, length=2 + i)
        add(d.klass, b"pack/C%d" % i, 2, i, width, i % 2 * 2, size=2 * i, class_=class_ + i)
    return d


def edges(bits):
    """Returns a dump with the least and the greatest number of each field, and an object at address 0."""
    top, most = 2**bits - 4, 2**31 - 1
    widest = bits // 32 + 1
    d = Dump().with_header(bits, vm=None)
    d.medium(0, 0, [4, 0x1FC])
    d.medium(0, 2**bits - 1, [top], width=widest)
    for code in range(widest):
        half = 2 ** (8 * 2**code - 1)
        d.long(4 * (half - 1), 1, [4], code=code, width=code, hash=0)
        d.long(4 * half, 2, hash=2**32 - 1)
        d.long(0, 3, [4 * (half - 1)], code=code, width=code)
    for code in range(widest, 4):
        d.array(top, 2**bits - 1, [4, top], 2**32 - 1, most, code=code, width=code)
        d.array(0, 0, length=most, code=code)
    for code in range(4):
        d.primitive(4 * code, 7, min(2 ** (8 * 2**code - 1) - 1, most), 2**32 - 1, code)
        d.primitive(4 * code, 0, 0, 0, code)
    for words in (False, True):
        d.long_primitive(4, 7, most if words else 127, 2**32 - 1, words)
        d.long_primitive(0, 0, 0, 0, words)
    d.klass(0, bytes(range(0x21, 0x7F)) * 3, most, 2**bits - 1)
    return d.klass(0, b"~", 0, 0)


def cache():
    """Returns a dump in which medium and long objects push class words, also those that a slot holds already; others do not."""
    d = Dump().with_header()
    for i, class_ in enumerate([0x100, 0x200, 0x100, 0x300, 0x400, 0x400, 0x500, 0x600, 0x700, 0x800, 0x900]):
        (d.long if i % 2 else d.medium)(d.address + 4, class_)
        if i % 5 == 0:
            d.array(d.address + 4, 0xF00).klass(d.address + 4, b"K").primitive(d.address + 4, 1, 2, 3)
        for slot in range(4) if i in (3, 8) else (i % 4, max(i - 3, 0) % 4):
            d.short(d.address + 4, slot)
    return d


def flag_bits(all_hashed):
    """Returns a dump with the moved bit with and without the hashed bit, and flag bits that are ignored."""
    d = Dump().with_header(all_hashed=all_hashed, openj9=False)
    for ignored in (0x00, 0x04, 0x08, 0x0C) if all_hashed else (0x00, 0x0C):
        for hash, hashed in [(7, 0)] if all_hashed else [(NONE, 0), (HASHED, 0), (0x12345678, 0), (0x12345678, 0x01)]:
            d.long(d.address + 4, 0x100, [0x40], hash=hash, extra_flags=ignored | hashed)
            d.array(d.address + 4, 0x100, [0x40], hash=hash, extra_flags=ignored | hashed)
            d.long_primitive(d.address + 4, 5, 6, 7, hash=hash, extra_flags=ignored | hashed)
    for ignored in (0x01, 0x02, 0x04, 0x07):
        d.klass(d.address + 4, b"K", hash=7 if all_hashed else NONE, extra_flags=ignored)
        d.klass(d.address + 4, b"K", hash=8, extra_flags=ignored)
    return d


def full(rows, refs=0):
    """Returns a dump with so many rows, of which the last has so many references."""
    d = Dump().with_header().medium(0, 0x100)
    for _ in range(rows - 2):
        d.short(d.address + 4, 0)
    return d.long(d.address + 4, 0x100, [d.address + 8] * refs)


def complete_dumps():
    d = example().end()
    assert d.bytes == EXAMPLE
    yield "example", d
    yield "case-f", example().end(b"\x03\x80more")
    yield "case-i", Dump().with_header().klass(0x1000, b"A", code=1).medium(0x0FFC, 0x1000, [0x100C]).end()
    yield "empty", Dump().with_header(vm=None).end()
    yield "forms-32", forms(0, bits=32, vm=b"").end()
    yield "forms-64", forms(1, bits=64, vm=bytes(range(0x20, 0x7F))).end()
    yield "forms-32-all-hashed", forms(2, bits=32, all_hashed=True, openj9=False, vm=b"J9").end()
    yield "forms-64-all-hashed", forms(3, bits=64, all_hashed=True, openj9=False, vm=None).end()
    yield "edges-32", edges(32).end()
    yield "edges-64", edges(64).end()
    yield "cache", cache().end()
    yield "flag-bits", flag_bits(False).end()
    yield "flag-bits-all-hashed", flag_bits(True).end()
    yield "rows-full", full(ROWS).end()
    yield "refs-full", full(3, REFS).short(0, 0).end()


# ---- dumps that are refused: the name of each begins with the reply


def bad_headers():
    """Yields headers, each by its fields up to the one at fault and the bytes after it."""
    length, string = OPENING
    rest = bytes.fromhex("00000006 00000004 01 02 02 03")
    yield "03-length", Dump().bad_header(3, [b"\x00\x13"], string + rest)
    yield "03-length-high", Dump().bad_header(3, [b"\x01\x12"], string + rest)
    yield "03-byte", Dump().bad_header(3, [length, b"portable heap dumP"], rest)
    yield "03-before-04", Dump().bad_header(3, [length, b"Portable heap dump"], b"\x00\x00\x00\x07" + rest[4:])

    def bad(name, checked, rest="02 02 03"):
        fields = [*OPENING, *map(bytes.fromhex, checked.split())]
        return name, Dump().bad_header(int(name[:2]), fields, bytes.fromhex(rest))

    yield bad("04-version", "00000005", "00000004 01 02 02 03")
    yield bad("04-version-high", "01000006", "00000004 01 02 02 03")
    yield bad("04-before-05", "00000007", "00000008 01 02 02 03")
    yield bad("05-flag-8", "00000006 00000008", "01 02 02 03")
    yield bad("05-flag-high", "00000006 80000004", "01 02 02 03")
    yield bad("05-before-06", "00000006 0000000F", "02 02 02 03")
    yield bad("06-start", "00000006 00000004 02")
    yield bad("06-header-tag-01", "00000006 00000004 01 01")
    yield bad("06-header-tag-03", "00000006 00000004 01 03")
    yield bad("06-after-vm", "00000006 00000004 01 04 0001 41 05")
    yield bad("06-no-body", "00000006 00000004 01 02 03")
    yield bad("06-no-body-after-vm", "00000006 00000007 01 04 0001 41 02 80")
    yield bad("07-vm-low-byte", "00000006 00000004 01 04 0003 411F42")
    yield bad("07-vm-high-byte", "00000006 00000004 01 04 0003 7F4142")
    yield bad("07-second-vm", "00000006 00000004 01 04 0001 41 04", "0001 41 02 02 03")


def one_object(**header):
    """Returns a dump with one object, at 0x1010, of the class at 0x1000."""
    hash = 0x51DE if header.get("all_hashed") else NONE
    return Dump().with_header(**header).medium(0x1010, 0x1000, [0x1020], code=1, hash=hash)


def bad_records():
    """Yields records, each after one good record, by its fields up to the one at fault and the bytes after it."""

    def bad(name, checked, rest="03", **header):
        return name, one_object(**header).bad_record(int(name[:2]), checked, rest)

    for tag in ("00", "02", "05", "1F"):
        yield bad("06-tag-" + tag, tag)
    yield bad("07-class-empty", "06 00 04 00000010 00000000 0000", "00000000 03")
    yield bad("07-class-space", "06 00 04 00000010 00000000 0003 412042", "00000000 03")
    yield bad("07-class-7F", "06 00 04 00000010 00000000 0001 7F", "00000000 03")
    yield bad("07-class-C3", "06 00 04 00000010 00000000 0002 C3A9", "00000000 03")
    yield bad("07-before-12", "06 00 04 00000010 00000000 0000", "FFFFFFFF 03")

    yield "08-case-j", Dump().with_header().bad_record(8, "06 40 8000", "00000010 00000000 0001 41 00000000 03")
    yield bad("08-gap-below-32", "84 FBFB")
    yield bad("08-gap-below-64", "04 C0 FFFFFFFFFFFFFBFB", "0000000000001000 00000000 03", bits=64)
    yield bad("08-gap-above-32", "04 80 3FFFFBFC", "00001000 00000000 03")
    yield bad("08-gap-above-64", "06 C0 3FFFFFFFFFFFFBFC", "00000010 0000000000000000 0001 41 00000000 03", bits=64)
    yield bad("08-gap-wraps-32", "22 40000000", "00000001 00000001 03")
    yield bad("08-gap-wraps-64", "07 10 4000000000000000", "0000000000000001 00000001 03", bits=64)
    yield bad("08-gap-wraps-down-64", "08 C0 C000000000000000", "0000000000001000 00000000 00000001 00000001 03", bits=64)
    yield bad("08-ref-below", "89 04 FBF7")
    yield bad("08-ref-above-32", "4A 04 00001000 3FFFFBF8")
    yield bad("08-ref-above-64", "04 30 04 0000000000001000 00000001 3FFFFFFFFFFFFBF8", bits=64)
    yield bad("08-ref-wraps-32", "08 20 04 00001000 00000001 40000000", "00000001 00000001 03")
    refs = "00000002 0000000000000001 4000000000000000"
    yield bad("08-second-ref-wraps-64", "06 30 04 00000010 0000000000000000 0001 41 " + refs, bits=64)
    yield bad("08-before-09", "91 04 FBF7", "FBF8 03")
    yield bad("08-before-12", "06 40 FBFB", "FFFFFFFF 00000000 0001 41 00000000 03")

    yield bad("09-short", "89 04 FBF8")
    yield bad("09-itself-at-0", "4C FBFC 00001000 00")
    yield bad("09-second", "04 10 04 00001000 00000002 0001 FBF8")
    yield bad("09-class", "06 10 04 00000010 00000000 0001 42 00000001 FBF8")
    yield bad("09-array", "08 10 04 00001000 00000001 FBF8", "00000001 00000001 03")
    yield bad("09-before-08", "91 04 FBF8", "FBF7 03")
    yield bad("09-before-12", "08 10 04 00001000 00000001 FBF8", "00000001 00000000 03")

    for name, checked in ("long", "04 01"), ("long-moved", "04 02"), ("array", "08 03"), ("array-moved", "08 02"):
        yield bad("11-" + name, checked, "04 00001000 0000 00000000 00000000 00000000 03", all_hashed=True)
    for name, checked in ("primitive", "07 01"), ("primitive-moved", "07 02"):
        yield bad("11-" + name, checked, "04 01 0000 00000001 03", all_hashed=True)
    yield bad("11-class", "06 08", "04 00000010 0000 00000000 0001 42 00000000 03", all_hashed=True)
    yield bad("11-before-08", "04 43", "8000 00001000 0000 00000000 03", all_hashed=True)

    yield bad("12-count", "04 00 04 00001000 80000000")
    yield bad("12-class-count", "06 00 04 00000010 00000000 0001 42 FFFFFFFF")
    yield bad("12-array-count", "08 00 04 00001000 FFFFFFFF", "00000001 00000001 03")
    yield bad("12-class-size", "06 00 04 80000000", "00000000 0001 42 00000000 03")
    yield bad("12-length-byte", "20 04 FF", "00000001 03")
    yield bad("12-length-int", "22 00000004 FFFFFFFF", "00000001 03")
    yield bad("12-length-long", "23 0000000000000004 0000000080000000", "00000001 03")
    yield bad("12-length-long-wraps", "23 0000000000000004 0000000100000000", "00000001 03")
    yield bad("12-long-primitive-byte", "07 00 04 80", "00000001 03")
    yield bad("12-long-primitive-32", "07 10 00000004 80000000", "00000001 03")
    yield bad("12-long-primitive-64", "07 10 0000000000000004 0000000080000000", "00000001 03", bits=64)
    yield bad("12-long-primitive-64-wraps", "07 10 0000000000000004 0000000100000000", "00000001 03", bits=64)
    yield bad("12-true-length-below", "08 00 04 00001000 00000002 01 02 00000001 00000001")
    yield bad("12-true-length-negative", "08 00 04 00001000 00000000 00000001 FFFFFFFF")
    yield bad("12-before-07", "06 00 04 FFFFFFFF", "00000000 0000 00000000 03")


def slots_and_capacity():
    """Yields dumps with an empty slot, and dumps that exceed the capacity for rows or references, which is checked last."""
    yield "10-slot-0", Dump().with_header().klass(0x1000, b"A", code=1).bad_record(10, "80", "04 03")
    yield "10-slot-0-after-array", Dump().with_header().array(0x100, 0x1000).bad_record(10, "80", "04 03")
    d = Dump().with_header().klass(0x1000, b"A", code=1).medium(0x1010, 0x1000, [0x1020])
    yield "10-case-h", d.bad_record(10, "A0", "04 24 04 03 00 00 00 06 03")
    yield "10-slot-2", one_object().long(0x1020, 0x1000).bad_record(10, "C0", "04 03")
    yield "10-slot-3", one_object().long(0x1020, 0x1000).medium(0x1030, 0x1000).bad_record(10, "E0", "04 03")
    yield "10-before-08", one_object().bad_record(10, "C4", "8000 03")
    yield "13-rows", full(ROWS + 1).short(0, 0).end()
    yield "13-before-14", full(ROWS + 1, REFS + 1).end()
    yield "14-refs", full(3, REFS - 1).medium(0x10, 0x100, [0x20, 0x20]).short(0x10, 0).end()
    yield "14-refs-at-once", full(2, REFS + 1).end()
    yield "08-before-13", full(ROWS).bad_record(8, "84 8000")
    yield "12-before-14", full(3, REFS).bad_record(12, "08 00 01 00000100 00000001 01 00000001 00000000")


def samples():
    yield from complete_dumps()
    for name, d in sorted([*bad_headers(), *bad_records(), *slots_and_capacity()], key=lambda sample: sample[0]):
        assert d.cuts[-1][1] == int(name[:2])
        yield "reply-" + name, d


fill_crate(sys.argv[1], ((name + ".phd", d.bytes, d.report()) for name, d in samples()))
