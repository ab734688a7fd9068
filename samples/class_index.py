"""Samples of texts of about 64 rows and more. The text of more than 64 rows finds class rows in an index by their addresses.

The index is a hash table. The class row of an address is in one of the 64 buckets from its own on; if there is not one for every class
row, also of a larger index, the rows are searched one by one. None of this changes a text.
"""
from text import ROWS, empty_dump, refused, written

# Addresses at this distance have the same hash, and so the same bucket.
SAME_HASH = 2**34 - 4


def hash_of(address):
    """Returns the hash of an address, whose upper bits are its bucket."""
    return (address // 4 + address // 2**34) % 2**32 * 0x9E3779B1 % 2**32


def sharing(count):
    """Returns so many addresses with one hash."""
    addresses = [0x123456780 + i * SAME_HASH for i in range(count)]
    assert len({hash_of(address) for address in addresses}) == 1
    return addresses


def arranged(classes, words, before, bits=64):
    """Returns a dump with class rows at these addresses, and with an object or object array for each class word; `before` of them
    are before the class rows. Class rows have names and sizes of their own."""
    d = empty_dump().with_header(bits)

    def objects(start, end):
        for i in range(start, end):
            (d.array if i % 3 == 2 else d.long)(0x10 * i, words[i], code=3)

    objects(0, before)
    for i, address in enumerate(classes):
        d.klass(address, b"K%d" % i, 100 + i, code=3, width=3)
    objects(before, len(words))
    return d.end()


def changing(classes, count):
    """Returns so many class words: these classes in a changing order, over and over."""
    return [classes[i * 7919 % len(classes)] for i in range(count)]


def many_rows():
    """Yields the names of the samples, and the samples."""
    few = [0x1000, 0x2000, 0x1100, 0x2100, 0x1004]
    for rows in (63, 64, 65, 66, ROWS):
        words = changing(few, rows - len(few))
        yield f"index-{rows}-first", written(arranged(few, words, 0, bits=32))
        yield f"index-{rows}-last", written(arranged(few, words, len(words), bits=32))
        words[-1] = 0x3000
        yield f"index-{rows}-missing", refused(arranged(few, words, 0, bits=32), 18, rows - 1)
    yield "index-between", written(arranged(few, changing(few, 90), 45))

    # two class rows with one address: the first counts
    twice = [few[1], few[0], few[0], few[1]]
    for name, before in ("before", 0), ("after", 80), ("between", 40):
        yield f"index-twice-{name}", written(arranged(twice, changing(few[:2], 80), before))
    d = empty_dump().with_header(64).klass(0x1000, b"A", code=1)
    for i in range(80):
        d.long(0x2000 + 0x10 * i, 0x1000, code=3)
    yield "index-twice-around", written(d.klass(0x1000, b"Again", 40, code=3).end())
    yield "index-all-one-address", written(arranged([0x1000] * 70, [0x1000] * 10, 5))

    # class rows that share a bucket: of at most 64 each is found in the index
    for count in (2, 40, 63, 64, 65, 66, 100):
        classes = sharing(count)
        words = changing(classes, ROWS - count)
        yield f"index-sharing-{count}", written(arranged(classes, words, len(words) if count % 2 else 0))
        missing = sharing(count + 1)[-1]
        yield f"index-sharing-{count}-missing", refused(arranged(classes, [*words[1:], missing], 0), 18, ROWS - 1)
