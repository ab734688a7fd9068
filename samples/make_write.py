#!/usr/bin/env python3
"""Makes the sample tables of a program crate that writes them as dumps, and the output that the program must print.

usage: samples/make_write.py crates/write_samples

Writes data/*.tables, args and stdout into that folder, the same on every run. The expected output follows from the tables
(tables.py); for refused tables this file has the reply and the row. A bad row is a good one with a number changed.
"""
import sys

from crate import fill_crate
from dump import EXAMPLE, HASHED, NONE, WIDTH, file_label
from tables import Tables, refused, written

# The greatest numbers that fit a byte, a short and an int.
MOST = 127, 32767, 2**31 - 1


def example():
    t = Tables().klass(0x1000, b"A").object(0x1010, 0x1000, [0x1020])
    return t.object(0x1020, 0x1000).primitive(0x1030, type=1, length=3, size=6)


def capacities():
    """Yields the worked example with more and less capacity than needed, and with numbers and bytes after it that are ignored."""
    t = example()
    assert t.dump().bytes == EXAMPLE
    yield "example", written(t, more=0)
    yield "example-capacity-75", written(t, more=1)
    yield "example-capacity-73", refused(t, 17, capacity=73)
    yield "example-capacity-0", refused(t, 17, capacity=0)
    t = example()
    t.leftover, t.refs, t.names = [9, 9, 9, 9, 9], t.refs + [0, 3, 2**64 - 1], t.names + b"\x00\xff"
    yield "example-more", written(t)
    yield "no-rows-capacity-31", refused(Tables(vm=None), 17, capacity=31)
    t = Tables()
    t.leftover = [2**64 - 1] * (WIDTH - 1)
    yield "no-rows-leftover", written(t, more=0)


def headers():
    """Yields every combination of header flags and VM string, without rows."""
    for bits in (32, 64):
        for all_hashed in (False, True):
            for openj9 in (False, True):
                for vm in (None, b"", b"IBM J9 2.9"):
                    t = Tables(bits, all_hashed, openj9, vm)
                    kind = "no-vm" if vm is None else "vm" if vm else "empty-vm"
                    flags = ["all-hashed"] * all_hashed + ["openj9"] * openj9
                    yield "-".join(["header", str(bits), *flags, kind]), written(t)
    yield "header-no-vm-ignored", written(Tables(vm=None).change(place=2**64 - 1, len=65536))
    yield "header-empty-vm-at-end", written(Tables(vm=b"").change_name(0, b"xyz").change(place=3))
    yield "header-vm-inside", written(Tables(vm=b"--Test--\x1f").change(place=1, len=6))
    yield "header-vm-bytes", written(Tables(vm=bytes(range(0x20, 0x7F))))
    yield "header-vm-65535", written(Tables(vm=b"x").change(len=65535).pad_names(65535))


# ---- forms and widths

# Functions that add a row of each form. One that is called moved has a stored hash; one that is called hashed has hash kind 1.
FORMS = {
    "class": lambda t, a, refs=(): t.klass(a, b"C%d" % len(t.rows), len(t.rows), 0x100, refs),
    "class-moved": lambda t, a, refs=(): t.klass(a, b"C", 2**31 - 1, 0x100, refs, 2**32 - 1),
    "short": lambda t, a, refs=(): t.object(a, 0x100, refs),
    "medium": lambda t, a, refs=(): t.object(a, 0x100 + len(t.rows), refs),
    "long-hashed": lambda t, a, refs=(): t.object(a, 0x100, refs, HASHED),
    "long-moved": lambda t, a, refs=(): t.object(a, 0x100, refs, 2**31),
    "array": lambda t, a, refs=(): t.array(a, 0x100, refs, 2**32 - 1, len(refs) + 1),
    "array-hashed": lambda t, a, refs=(): t.array(a, 0x100, refs, 0, 2**31 - 1, HASHED),
    "array-moved": lambda t, a, refs=(): t.array(a, 0x100, refs, 5, len(refs), 0),
    "primitive": lambda t, a: t.primitive(a, len(t.rows) % 8, 9, 2**32 - 1),
    "primitive-hashed": lambda t, a: t.primitive(a, len(t.rows) % 8, 9, 0, HASHED),
    "primitive-moved": lambda t, a: t.primitive(a, len(t.rows) % 8, 9, 5, 1),
}


def boundaries(bits):
    """Returns the boundaries of each width that a gap or a reference can have for this W."""
    return [most + more for most in MOST[: bits // 32 + 1] for more in (0, 1, 2)]


def gaps(form, bits):
    """Returns tables with each boundary as a gap, up and down again."""
    t, middle = Tables(bits, vm=None), 2 ** (bits - 1)
    FORMS[form](t, middle)
    for n in boundaries(bits):
        FORMS[form](FORMS[form](t, middle + 4 * n), middle)
    return t


def refs(form, bits):
    """Returns tables with each boundary as a reference, up and down; then with references of several widths, and with none."""
    t, middle = Tables(bits, vm=None), 2 ** (bits - 1)
    t.object(middle, 0x100)
    for n in boundaries(bits):
        FORMS[form](t, middle, [middle + 4 * n])
        FORMS[form](t, middle, [middle - 4 * n])
    for several in ([0, 128, -129], [-(2**28), 127], [32767, 127, -128]):
        FORMS[form](t, middle, [middle + 4 * n for n in several])
    return FORMS[form](t, middle)


def lengths(bits, hash):
    """Returns primitive arrays of each type, with each boundary of the gap and of the length, which share a width."""
    t, a = Tables(bits, vm=None), 2**31
    t.primitive(a, 7, 0, 0, hash)
    for gap, length in [(0, most + more) for most in MOST for more in (0, 1)][:5] + [
        (127, 0), (128, 0), (-128, 0), (-129, 0), (32767, 1), (32768, 1), (-32768, 1), (-32769, 1),
        (127, 128), (128, 127), (32767, 32768), (32768, 32767), (-128, 2**31 - 1),
    ]:  # fmt: skip
        a += 4 * gap
        t.primitive(a, len(t.rows) % 8, length, len(t.rows), hash)
    return t


def counts(cached, bits, all_hashed):
    """Returns objects with 0 to 9 references, whose class is in a slot or in none."""
    hash = 0xFFFF if all_hashed else NONE
    t = Tables(bits, all_hashed).object(0x1000, 0x100, hash=hash)
    for n in range(10):
        t.object(0x1004 + 4 * n, 0x100 if cached else 0x200 + n, [0x1000 + 4 * i for i in range(n)], hash)
    return t


def all_hashed_forms(bits):
    """Returns tables with every form of an all-hashed dump: as in others, with a short hash and no hash bits."""
    t, a = Tables(bits, all_hashed=True, openj9=False, vm=b""), 2**31
    for i, (far, hash) in enumerate([(1, 0), (40000, 0xFFFF), (2**29 - 1, 0x8000)]):
        t.klass(a + 4 * far, b"C", 1, 2, [a], hash).object(a, 0x100, [a + 4 * far], hash)
        t.object(a + 4, 0x100, [], hash).object(a - 4 * far, 0x100 + i, [a], hash)
        t.object(a, 0x200, [a + 4 * k for k in range(8)], hash)
        t.array(a + 4 * far, 0x100, [a], 3, 4, hash).primitive(a, 7 - i, 5, 6, hash)
    return t


def edges(bits):
    """Returns tables with the least and the greatest numbers of each kind of row."""
    t, top, most = Tables(bits, vm=None), 2**bits - 4, 2**31 - 1
    t.object(0, 0, [4, top]).object(top, 2**bits - 1, [4, top])
    t.array(0, 2**bits - 1, [top, 4], 2**32 - 1, most).array(top, 0, [4], 0, 1)
    t.primitive(0, 7, most, 2**32 - 1).primitive(top, 0, 0, 0).primitive(0, 7, most, 2**32 - 1, HASHED)
    t.klass(top, bytes(range(0x21, 0x7F)), most, 2**bits - 1, [4]).klass(0, b"~", 0, 0, [top], 0)
    return t.object(top, 0, [4], HASHED).object(0, 0, [top], 2**32 - 1)


def forms():
    for bits in (32, 64):
        for form in FORMS:
            yield f"gaps-{form}-{bits}", written(gaps(form, bits))
            if not form.startswith("primitive"):
                yield f"refs-{form}-{bits}", written(refs(form, bits))
        for name, hash in ("no-hash", NONE), ("hashed", HASHED), ("moved", 2**32 - 1):
            yield f"lengths-{name}-{bits}", written(lengths(bits, hash))
        for name, cached in ("cached", True), ("new", False):
            yield f"counts-{name}-{bits}", written(counts(cached, bits, False))
            yield f"counts-{name}-{bits}-all-hashed", written(counts(cached, bits, True))
        yield f"all-hashed-{bits}", written(all_hashed_forms(bits))
        yield f"edges-{bits}", written(edges(bits))
    yield "refs-70", written(Tables().array(0x1000, 0x100, [0x1000 + 4 * n for n in range(1, 71)], 70, 70))
    yield "name-65535", written(Tables(vm=None).klass(4, b"x").change(0, name_length=65535).pad_names(65535))
    shared = Tables(vm=b"java/lang/String").klass(4, b"y").change(0, name_place=5, name_length=4)
    yield "names-shared", written(shared.klass(8, b"z").change(1, name_place=0, name_length=16))
    swapped = Tables().klass(4, b"First").klass(8, b"Second")
    yield "names-swapped", written(swapped.change(0, name_place=9, name_length=6).change(1, name_place=4, name_length=5))


# ---- the cache


def objects(*classes):
    """Returns the sample of an object of each class word; the strings `array`, `class` and `long` give a row of that form."""
    t = Tables(vm=None)
    for class_ in classes:
        a = 4 * len(t.rows)
        if class_ == "array":
            t.array(a, 0x900)
        elif class_ == "class":
            t.klass(a, b"K", class_=0x900)
        elif class_ == "long":
            t.object(a, 0x900, hash=HASHED)
        else:
            t.object(a, class_)
    return written(t)


def cache():
    a, b, c, d, e = 0x100, 0x200, 0x300, 0x400, 0x500
    yield "cache-four", objects(a, b, c, d, d, c, b, a)
    yield "cache-fifth", objects(a, b, c, d, e, e, b, c, d, a, e, b, a)
    yield "cache-lowest-of-two", objects(0x900, "long", 0x900, b, 0x900, c, 0x900, d, 0x900, e, 0x900, a, 0x900)
    yield "cache-empty-slot", objects(0, 0, a, 0, a)
    yield "cache-empty-slot-second", objects(a, 0, 0, a)
    yield "cache-no-push", objects("array", 0x900, "class", a, "array", "class", a, a, 0x900, b, c, d, 0x900, a)
    yield "cache-long", objects("long", 0x900, "long", "long", "long", "long", 0x900, a, 0x900, b, c, d, 0x900)


# ---- tables that are refused: with 16 and the index of the row, 15 and 17


def three_rows(kind, bits=32, all_hashed=False):
    """Returns tables with a row of some kind between two objects. Its name is at the end of the name bytes."""
    t, hash = Tables(bits, all_hashed), 7 if all_hashed else NONE
    t.object(0x1000, 0x100, [0x1010], hash)
    if kind == "class":
        t.klass(0x1010, b"Name", 16, 0x100, [0x1000, 0x1020], hash)
    elif kind == "object":
        t.object(0x1010, 0x100, [0x1000, 0x1020], hash)
    elif kind == "array":
        t.array(0x1010, 0x100, [0x1000, 0x1020], 16, 2, hash)
    else:
        t.primitive(0x1010, 5, 6, 7, hash)
    return t.object(0x1030, 0x100, [0x1020], hash)


KINDS = "class", "object", "array", "primitive"

# The numbers that are bad for each kind of row, each by itself.
BAD = {
    "class": dict(
        class_=[2**32], hash_kind=[1], count=[4], size=[2**31, 2**32 + 16], length=[1], name_place=[5, 2**64 - 4],
        name_length=[0, 5, 2**64 - 4], type=[1],
    ),
    "object": dict(
        kind=[0, 5, 2**32 + 2, 2**64 - 1], class_=[2**32], count=[4, 2**64 - 1], size=[1], length=[1], name_place=[1],
        name_length=[1], type=[1],
    ),
    "array": dict(
        class_=[2**32], size=[2**32], length=[1, 2**31, 2**32 + 2], name_place=[1], name_length=[1], type=[1],
    ),
    "primitive": dict(
        class_=[1], count=[1], size=[2**32], length=[2**31, 2**32 + 6], name_place=[1], name_length=[1],
        type=[8, 2**32 + 5],
    ),
}  # fmt: skip

BAD_ANYWHERE = dict(
    address=[0x1011, 0x1012, 0x1013, 2**32, 2**32 + 0x1010], first=[0, 2, 2**64 - 1], hash_kind=[3, 4, 2**32], hash=[1]
)


def bad_numbers():
    for kind in KINDS:
        for table in (BAD_ANYWHERE, BAD[kind]):
            for number, values in table.items():
                for value in values:
                    t = three_rows(kind).change(1, **{number: value})
                    yield f"bad-{kind}-{file_label(number)}-{value:x}", refused(t, 16, 1)
        if kind != "class":
            yield f"bad-{kind}-hashed-hash-1", refused(three_rows(kind).change(1, hash_kind=1, hash=1), 16, 1)
        yield f"bad-{kind}-moved-hash-100000000", refused(three_rows(kind).change(1, hash_kind=2, hash=2**32), 16, 1)
        for hash_kind in (0, 1, 2, 4):
            t = three_rows(kind, all_hashed=True).change(1, hash_kind=hash_kind, hash=0)
            yield f"bad-{kind}-all-hashed-kind-{hash_kind}", refused(t, 16, 1)
        yield f"bad-{kind}-all-hashed-hash-10000", refused(three_rows(kind, all_hashed=True).change(1, hash=2**16), 16, 1)
        for address in (0x1011, 2**64 - 1):
            yield f"bad-{kind}-64-address-{address:x}", refused(three_rows(kind, 64).change(1, address=address), 16, 1)


def bad_others():
    """Yields tables with bad references and names, and tables in which the index of the bad row matters."""
    for kind in KINDS[:3]:
        for i, ref in [(1, 0), (1, 0x1021), (2, 0), (2, 0x1022), (2, 2**32), (2, 2**32 + 0x1020)]:
            yield f"bad-{kind}-ref-{i}-{ref:x}", refused(three_rows(kind).change_ref(i, ref), 16, 1)
        for ref in (0, 2**64 - 1):
            yield f"bad-{kind}-64-ref-{ref:x}", refused(three_rows(kind, 64).change_ref(1, ref), 16, 1)
    for place, name in (4, b"\x20"), (5, b"\x7f"), (7, b"\x00"), (7, b"\x20"), (7, b"\xff"):
        yield f"bad-class-name-byte-{place}-{name[0]:x}", refused(three_rows("class").change_name(place, name), 16, 1)
    t = three_rows("class").change(1, name_length=65536).pad_names(65540)
    yield "bad-class-name-length-10000", refused(t, 16, 1, capacity=69632)
    yield "bad-array-count-4", refused(three_rows("array").change(1, count=4, length=4), 16, 1)
    yield "bad-first-row", refused(three_rows("object").change(0, first=1), 16, 0)
    yield "bad-last-row", refused(three_rows("object").change(2, kind=1), 16, 2)
    yield "bad-last-ref", refused(three_rows("object").change_ref(3, 2), 16, 2)
    yield "bad-row-after-count", refused(three_rows("object").change(1, count=1), 16, 2)
    yield "bad-two-rows", refused(three_rows("object").change(1, type=1).change(2, kind=0), 16, 1)
    yield "bad-two-rows-swapped", refused(three_rows("object").change(1, name_place=1).change(0, address=2), 16, 0)
    many = Tables()
    for i in range(48):
        many.object(4 * i, 0x100)
    yield "bad-row-47", refused(many.change(47, size=1), 16, 47)
    yield "bad-row-before-capacity", refused(three_rows("object").change(2, size=1), 16, 2, capacity=0)


def bad_headers():
    for bits in (0, 1, 31, 33, 63, 65, 2**32 + 32, 2**64 - 1):
        yield f"header-bad-bits-{bits:x}", refused(example().change(bits=bits), 15)
    for name, vm in ("len-6", dict(len=6)), ("place-2", dict(place=2)), ("place-6", dict(place=6, len=0)):
        yield "header-bad-vm-" + name, refused(example().change(**vm), 15)
    for place, length in (2**64 - 4, 4), (2**64 - 1, 1), (1, 2**64 - 1), (2**63, 2**63):
        yield f"header-bad-vm-wraps-{place:x}-{length:x}", refused(Tables(vm=b"").change(place=place, len=length), 15)
    for place, byte in (0, b"\x1f"), (3, b"\x7f"), (2, b"\x80"):
        yield f"header-bad-vm-byte-{place}-{byte[0]:x}", refused(example().change_name(place, byte), 15)
    yield "header-bad-vm-10000", refused(Tables().change(len=65536).pad_names(65536), 15, capacity=69632)
    yield "header-bad-before-row", refused(three_rows("object").change(bits=33).change(1, kind=0), 15)
    yield "header-bad-before-capacity", refused(three_rows("object").change(len=9), 15, capacity=0)


def samples():
    yield from capacities()
    yield from headers()
    yield from forms()
    yield from cache()
    for kind in KINDS:
        yield f"good-{kind}", written(three_rows(kind))
        yield f"good-{kind}-64", written(three_rows(kind, 64))
        yield f"good-{kind}-all-hashed", written(three_rows(kind, all_hashed=True))
    yield from bad_numbers()
    yield from bad_others()
    yield from bad_headers()


fill_crate(sys.argv[1], ((name + ".tables", *sample) for name, sample in samples()))
