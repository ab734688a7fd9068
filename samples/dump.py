"""A portable heap dump that is built record by record, and the answers that reading it must give.

Each record adds its bytes, field by field (docs/FORMAT.md 3), its row and its references, and the answer of reading the dump cut
right after the record. Nothing here decodes bytes: the expected answers follow from what was added.
"""

# The numbers of a row, in their order (docs/FORMAT.md 4.1); `class_` is the class word. Those that a record does not name are 0.
ROW = (
    "kind", "address", "class_", "hash_kind", "hash", "first", "count", "size", "length", "name_place", "name_length", "type",
    "offset",
)  # fmt: skip
WIDTH = len(ROW)

# The capacity of the programs that read dumps and write tables: whole rows, and references.
ROWS, REFS = 48, 70

# The first two fields of a dump: the length of the opening string, and the string.
OPENING = b"\x00\x12", b"portable heap dump"

# The worked example of docs/FORMAT.md 9.
EXAMPLE = bytes.fromhex(
    """
    00 12 70 6F 72 74 61 62 6C 65 20 68 65 61 70 20 64 75 6D 70 00 00 00 06 00 00 00 04 01 04 00 04 54 65 73 74 02 02
    06 40 04 00 00 00 00 10 00 00 00 00 00 01 41 00 00 00 00
    48 04 00 00 10 00 04
    80 04
    24 04 03 00 00 00 06
    03
    """
)

# The hash of a record is a number; in a dump that is not all-hashed also NONE (hash kind 0), or HASHED (hash kind 1: hashed, but
# no hash is stored). There a record without a flag byte has NONE.
NONE, HASHED = "none", "hashed"


def encode_unsigned(n, size):
    return n.to_bytes(size, "big")


def encode_signed(n, size):
    return n.to_bytes(size, "big", signed=True)


def encode_gap(address, base, code):
    """Encodes the gap from the address `base` to another, with a width code."""
    assert (address - base) % 4 == 0
    return encode_signed((address - base) // 4, 2**code)


def encode_refs(address, refs, code):
    return [encode_gap(r, address, code) for r in refs]


def answer_line(answer):
    """Returns the line that a program prints for the answer of a reading."""
    return "reply {} place {} missing {} rows {} refs {} bits {}".format(*answer)


def file_label(number):
    """Returns the name of a number as file names have it."""
    return number.rstrip("_").replace("_", "-")


class Dump:
    def __init__(self, row_capacity=ROWS, ref_capacity=REFS):
        self.row_capacity, self.ref_capacity = row_capacity, ref_capacity
        self.bytes = b""
        # the offset at which each field ends
        self.ends = []
        self.header = dict(bits=0, all_hashed=0, openj9=0, vm=0, place=0, len=0)
        self.rows, self.refs = [], []
        # the address of the last record
        self.address = 0
        # the class words of all medium and long objects, in order
        self.pushed = []
        # from which length on a cut has which reply, place, row count, reference count and W
        self.cuts = []
        # whether the last answer is final
        self.stopped = False
        self.set_answer(1, 0)

    def set_answer(self, reply, place):
        """Sets the answer of every cut from the present length on, unless the last one is final."""
        if not self.stopped:
            self.cuts.append((len(self.bytes), reply, place, len(self.rows), len(self.refs), self.header["bits"]))

    def stop(self, reply, place):
        """Sets the final answer: bytes that are added later do not change it."""
        self.set_answer(reply, place)
        self.stopped = True

    def add_fields(self, *fields):
        """Adds bytes, field by field. A field that a record lacks is empty."""
        for field in fields:
            self.bytes += field
            self.ends.append(len(self.bytes))

    # ---- the header

    def with_header(self, bits=32, all_hashed=False, openj9=True, vm=b"Test"):
        flags = (bits == 64) * 1 + all_hashed * 2 + openj9 * 4
        self.add_fields(*OPENING, encode_unsigned(6, 4), encode_unsigned(flags, 4), b"\x01")
        self.header.update(bits=bits, all_hashed=int(all_hashed), openj9=int(openj9))
        if vm is not None:
            self.add_fields(b"\x04", encode_unsigned(len(vm), 2))
            self.header.update(vm=1, place=len(self.bytes), len=len(vm))
            self.add_fields(vm)
        self.add_fields(b"\x02", b"\x02")
        self.set_answer(1, len(self.bytes))
        return self

    def bad_header(self, reply, checked, rest):
        """Adds a header that is refused: the fields that are checked, the last of them at fault, and the bytes after them."""
        self.add_fields(*checked)
        self.stop(reply, 0)
        self.bytes += rest
        return self

    # ---- records, by the forms of docs/FORMAT.md 3.3: `code` and `width` are the width codes of the gap and of a reference,
    # `extra_flags` are flag bits besides those that follow from the other arguments

    def short(self, address, slot, refs=(), code=0, width=0, hash=NONE):
        data = [encode_unsigned(0x80 | slot << 5 | len(refs) << 3 | code << 2 | width, 1)]
        data += [self.encode_gap(address, code), self.encode_hash(hash), *encode_refs(address, refs, width)]
        class_ = self.pushed[slot::4][-1]
        return self.add_record(data, refs, kind=2, address=address, class_=class_, **self.hash_numbers(hash))

    def medium(self, address, class_, refs=(), code=0, width=0, hash=NONE):
        data = [encode_unsigned(0x40 | len(refs) << 3 | code << 2 | width, 1)]
        data += [self.encode_gap(address, code), self.encode_word(class_), self.encode_hash(hash)]
        data += encode_refs(address, refs, width)
        self.pushed.append(class_)
        return self.add_record(data, refs, kind=2, address=address, class_=class_, **self.hash_numbers(hash))

    def long(self, address, class_, refs=(), code=0, width=0, hash=NONE, extra_flags=0):
        data = [b"\x04", encode_unsigned(code << 6 | width << 4 | self.hash_flags(hash) | extra_flags, 1)]
        data += [self.encode_gap(address, code), self.encode_word(class_), self.encode_hash(hash)]
        data += [encode_signed(len(refs), 4), *encode_refs(address, refs, width)]
        self.pushed.append(class_)
        return self.add_record(data, refs, kind=2, address=address, class_=class_, **self.hash_numbers(hash))

    def primitive(self, address, type, length, size, code=0, hash=NONE):
        data = [encode_unsigned(0x20 | type << 2 | code, 1)]
        data += [self.encode_gap(address, code), encode_signed(length, 2**code), self.encode_hash(hash), encode_unsigned(size, 4)]
        numbers = dict(type=type, length=length, size=size, **self.hash_numbers(hash))
        return self.add_record(data, kind=4, address=address, **numbers)

    def long_primitive(self, address, type, length, size, words=False, hash=NONE, extra_flags=0):
        code = (3 if self.header["bits"] == 64 else 2) if words else 0
        data = [b"\x07", encode_unsigned(type << 5 | words << 4 | self.hash_flags(hash) | extra_flags, 1)]
        data += [self.encode_gap(address, code), encode_signed(length, 2**code), self.encode_hash(hash), encode_unsigned(size, 4)]
        numbers = dict(type=type, length=length, size=size, **self.hash_numbers(hash))
        return self.add_record(data, kind=4, address=address, **numbers)

    def array(self, address, class_, refs=(), size=0, length=None, code=0, width=0, hash=NONE, extra_flags=0):
        length = len(refs) if length is None else length
        data = [b"\x08", encode_unsigned(code << 6 | width << 4 | self.hash_flags(hash) | extra_flags, 1)]
        data += [self.encode_gap(address, code), self.encode_word(class_), self.encode_hash(hash)]
        data += [encode_signed(len(refs), 4), *encode_refs(address, refs, width)]
        data += [encode_unsigned(size, 4), encode_signed(length, 4)]
        numbers = dict(size=size, length=length, **self.hash_numbers(hash))
        return self.add_record(data, refs, kind=3, address=address, class_=class_, **numbers)

    def klass(self, address, name, size=16, class_=0, refs=(), code=0, width=0, hash=NONE, extra_flags=0):
        moved = 0x08 if self.hash_flags(hash) else 0
        data = [b"\x06", encode_unsigned(code << 6 | width << 4 | moved | extra_flags, 1), self.encode_gap(address, code)]
        data += [encode_signed(size, 4), self.encode_hash(hash), self.encode_word(class_), encode_unsigned(len(name), 2)]
        place = len(self.bytes) + sum(map(len, data))
        numbers = dict(size=size, name_place=place, name_length=len(name), **self.hash_numbers(hash))
        data += [name, encode_signed(len(refs), 4), *encode_refs(address, refs, width)]
        return self.add_record(data, refs, kind=1, address=address, class_=class_, **numbers)

    def bad_record(self, reply, checked, rest="03"):
        """Adds a record that is refused, in hexadecimal: the fields that are checked, separated by spaces, the last of them at
        fault, and the bytes after them."""
        tag = len(self.bytes)
        self.add_fields(*map(bytes.fromhex, checked.split()))
        self.stop(reply, tag)
        self.bytes += bytes.fromhex(rest)
        return self

    def end(self, more=b""):
        """Adds the end tag, and bytes after it."""
        self.add_fields(b"\x03")
        self.stop(0, len(self.bytes))
        self.bytes += more
        return self

    # ---- what records share

    def encode_gap(self, address, code):
        return encode_gap(address, self.address, code)

    def encode_word(self, n):
        return encode_unsigned(n, self.header["bits"] // 8)

    def hash_flags(self, hash):
        return 0 if self.header["all_hashed"] or hash == NONE else 0x01 if hash == HASHED else 0x02

    def encode_hash(self, hash):
        if self.header["all_hashed"]:
            return encode_unsigned(hash, 2)
        return b"" if hash in (NONE, HASHED) else encode_unsigned(hash, 4)

    def hash_numbers(self, hash):
        """Returns a row's hash kind and hash."""
        if self.header["all_hashed"]:
            return dict(hash_kind=3, hash=hash)
        return {NONE: dict(hash_kind=0), HASHED: dict(hash_kind=1)}.get(hash, dict(hash_kind=2, hash=hash))

    def add_record(self, data, refs=(), **numbers):
        """Adds a complete record, by its fields. Capacity is checked last, for the row before the references. A record that does
        not fit adds no row and no references."""
        tag = len(self.bytes)
        self.add_fields(*data)
        if len(self.rows) == self.row_capacity:
            self.stop(13, tag)
        elif len(self.refs) + len(refs) > self.ref_capacity:
            self.stop(14, tag)
        if not self.stopped:
            numbers.update(first=len(self.refs), count=len(refs), offset=tag)
            self.rows.append([numbers.pop(n, 0) for n in ROW])
            assert not numbers
            self.refs += refs
            self.address = self.rows[-1][ROW.index("address")]
            self.set_answer(1, len(self.bytes))
        return self

    # ---- the answers of reading the first bytes

    def missing_at(self, length):
        """Returns how many bytes the field lacks in which the first `length` bytes end. After the last field a tag is missing."""
        return next((end - length for end in self.ends if end > length), 1)

    def answer_at(self, length):
        """Returns reply, place, missing bytes, row count, reference count and W."""
        reply, place, *others = [answer for at, *answer in self.cuts if at <= length][-1]
        return reply, place, self.missing_at(length) if reply == 1 else 0, *others

    # ---- what a program prints

    def read_lines(self):
        """Returns the lines for the answer and the tables of reading the whole dump."""
        yield answer_line(self.answer_at(len(self.bytes)))
        yield "all-hashed {all_hashed} openj9 {openj9} vm {vm} place {place} len {len}".format(**self.header)
        for row in self.rows:
            yield " ".join(["row", *map(str, row)])
        for i in range(0, len(self.refs), 8):
            yield " ".join(["refs", *map(str, self.refs[i : i + 8])])

    def report(self):
        """Returns the lines for the whole dump and for every cut of it."""
        yield from self.read_lines()
        for length, *_ in self.cuts:
            yield f"cut {length} {answer_line(self.answer_at(length))}"
        missing = [self.answer_at(length)[2] for length in range(len(self.bytes) + 1)]
        for i in range(0, len(missing), 32):
            yield " ".join(["missing", *map(str, missing[i : i + 32])])
        yield "rest unchanged"
