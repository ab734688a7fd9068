"""Tables that are written as a dump, and the answers and bytes that writing them must give.

Form, widths and slot of each record are chosen here from its row, by docs/FORMAT.md 6.2. dump.py encodes the form, and has the
answer of reading it.
"""
from dump import HASHED, NONE, REFS, ROW, ROWS, WIDTH, Dump, encode_unsigned

# The offsets of the rows, in turn. A writer accepts any number there.
OFFSETS = 2**64 - 1, 0, 38, 2**63, 2**32 - 1

# The numbers in which two rows of the same record may differ (docs/FORMAT.md 4.2).
IGNORED = "name_place", "offset"

# The capacity of the program for name bytes and for output, and the bytes in a line that it prints.
BYTES, LINE = 0x11000, 32


def width_code(n):
    """Returns the least width code of a signed number."""
    return next(code for code in range(4) if -(2 ** (8 * 2**code - 1)) <= n < 2 ** (8 * 2**code - 1))


def slot_of(class_, pushed):
    """Returns the lowest slot that holds a class word, after the class words `pushed`; None if there is none."""
    return next((slot for slot in range(4) if pushed[slot::4][-1:] == [class_]), None)


def encode_row(d, refs, name, kind, address, class_, hash_kind, hash, type, size, length, **_):
    """Adds a row to a dump as its next record, in the form and the widths of docs/FORMAT.md 6.2."""
    code = width_code((address - d.address) // 4)
    width = max([width_code((a - address) // 4) for a in refs], default=0)
    no_hash_flags = hash_kind in (0, 3)
    hash = [NONE, HASHED, hash, hash][hash_kind]
    extra_flags = 0x01 if hash_kind == 2 else 0
    slot = slot_of(class_, d.pushed)
    if kind == 1:
        return d.klass(address, name, size, class_, refs, code, width, hash)
    if kind == 3:
        return d.array(address, class_, refs, size, length, code, width, hash, extra_flags)
    if kind == 4:
        code = max(code, width_code(length))
        if no_hash_flags:
            return d.primitive(address, type, length, size, code, hash)
        return d.long_primitive(address, type, length, size, code > 0, hash, extra_flags)
    if no_hash_flags and len(refs) <= 3 and slot is not None and code <= 1:
        return d.short(address, slot, refs, code, width, hash)
    if no_hash_flags and len(refs) <= 7 and code <= 1:
        return d.medium(address, class_, refs, code, width, hash)
    return d.long(address, class_, refs, code, width, hash, extra_flags)


class Tables:
    def __init__(self, bits=32, all_hashed=False, openj9=True, vm=b"Test"):
        present = int(vm is not None)
        self.header = dict(bits=bits, all_hashed=int(all_hashed), openj9=int(openj9), vm=present, place=0, len=0)
        self.names = b""
        if vm is not None:
            self.header.update(self.add_name(vm, "place", "len"))
        self.rows, self.refs = [], []
        # numbers after the last whole row
        self.leftover = []
        # how many name bytes are passed, if more than the file has: the others are `x`
        self.names_length = 0

    # ---- rows; a hash is as in a dump: a number, NONE or HASHED

    def klass(self, address, name, size=16, class_=0, refs=(), hash=NONE):
        named = self.add_name(name, "name_place", "name_length")
        return self.add_row(refs, hash, kind=1, address=address, class_=class_, size=size, **named)

    def object(self, address, class_, refs=(), hash=NONE):
        return self.add_row(refs, hash, kind=2, address=address, class_=class_)

    def array(self, address, class_, refs=(), size=0, length=None, hash=NONE):
        length = len(refs) if length is None else length
        return self.add_row(refs, hash, kind=3, address=address, class_=class_, size=size, length=length)

    def primitive(self, address, type, length, size, hash=NONE):
        return self.add_row((), hash, kind=4, address=address, type=type, length=length, size=size)

    def add_name(self, name, place, length):
        """Adds name bytes, and returns their place and length as numbers of these names."""
        self.names += name
        return {place: len(self.names) - len(name), length: len(name)}

    def add_row(self, refs, hash, **numbers):
        if self.header["all_hashed"]:
            numbers.update(hash_kind=3, hash=hash)
        elif hash not in (NONE, HASHED):
            numbers.update(hash_kind=2, hash=hash)
        else:
            numbers.update(hash_kind=int(hash == HASHED))
        numbers.update(first=len(self.refs), count=len(refs), offset=OFFSETS[len(self.rows) % len(OFFSETS)])
        self.refs += refs
        self.rows.append({n: numbers.pop(n, 0) for n in ROW})
        assert not numbers
        return self

    # ---- changes

    def change(self, i=None, **numbers):
        """Changes numbers of row i, or of the header if no row is given."""
        old = self.header if i is None else self.rows[i]
        assert all(old[n] != new for n, new in numbers.items())
        old.update(numbers)
        return self

    def change_ref(self, i, ref):
        self.refs[i] = ref
        return self

    def change_name(self, place, name):
        self.names = self.names[:place] + name + self.names[place + len(name) :]
        return self

    def pad_names(self, length):
        """Passes `length` name bytes, of which those that the file lacks are `x`."""
        self.names_length = length
        return self

    # ---- the file of a sample, and the dump

    def passed_names(self):
        return self.names.ljust(self.names_length, b"x")

    def file(self, capacity):
        """Returns the bytes of the file that crates/write_samples/src/tables.rt reads; `capacity` is that of the output."""
        rows = [n for row in self.rows for n in row.values()] + self.leftover
        counts = len(rows), len(self.refs), len(self.passed_names())
        assert len(rows) <= ROWS * WIDTH + 5 and len(self.refs) <= REFS and max(capacity, counts[2]) <= BYTES
        numbers = *self.header.values(), capacity, *counts, *rows, *self.refs
        return b"".join(encode_unsigned(n, 8) for n in numbers) + self.names

    def dump(self):
        """Returns the dump that writing the tables makes. Reading it gives the same rows, except for the numbers in IGNORED."""
        names, header = self.passed_names(), dict(self.header)
        present, place, length = header.pop("vm"), header.pop("place"), header.pop("len")
        d = Dump().with_header(vm=names[place : place + length] if present else None, **header)
        for row in self.rows:
            refs = self.refs[row["first"] : row["first"] + row["count"]]
            name = names[row["name_place"] : row["name_place"] + row["name_length"]]
            encode_row(d, refs, name, **row)
            read = dict(zip(ROW, d.rows[-1]))
            assert name == d.bytes[read["name_place"] :][: len(name)] and refs == d.refs[row["first"] :]
            assert all(read[n] == row[n] for n in ROW if n not in IGNORED)
        return d.end()


def byte_lines(data):
    """Returns the lines that the program prints for bytes. A whole line that is equal to the one before is counted instead."""
    last, repeated = None, 0
    for line in [data[i : i + LINE] for i in range(0, len(data), LINE)] + [None]:
        if line == last and line is not None and len(line) == LINE:
            repeated += 1
            continue
        if repeated:
            yield f"repeated {repeated}"
        if line is not None:
            yield "bytes " + line.hex(" ")
        last, repeated = line, 0


# ---- samples: the bytes of a file, and the lines that the program prints for it


def written(tables, more=7):
    """Returns the sample of tables that are written, to an output that is `more` bytes longer than the dump."""
    d = tables.dump()
    first, *others = d.read_lines()
    answer = f"reply 0 place {len(d.bytes)}"
    report = ["size " + answer, answer, *byte_lines(d.bytes), "rest unchanged", "read " + first, *others]
    return tables.file(len(d.bytes) + more), report


def refused(tables, reply, place=0, capacity=512):
    """Returns the sample of tables that are refused. If only the output is too small, the size query still gives the size."""
    answer = f"reply {reply} place {place}"
    size = f"reply 0 place {len(tables.dump().bytes)}" if reply == 17 else answer
    return tables.file(capacity), ["size " + size, answer, "rest unchanged"]
