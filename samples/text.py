"""The classic text of a dump's records, and the lines that the program that writes it must print.

The text is made here from the records that were added to a dump (dump.py), by docs/FORMAT.md 7. After its end tag a dump may have
changes of the tables that were read; crates/text_samples/src/changes.rt describes how they are encoded.
"""
from dump import ROW, WIDTH, Dump, answer_line, encode_unsigned

# The capacity of the program: whole rows and the numbers after them, references, and bytes for a file and for output.
ROWS, MORE, REFS, BYTES = 128, WIDTH - 1, 160, 0x40000

# What every number of the program's tables is before the reading.
UNREAD = 0x5EED5EED5EED5EED

CLASS, OBJECT, ARRAY, PRIMITIVE = 1, 2, 3, 4

TYPES = "[Z", "[C", "[F", "[D", "[B", "[S", "[I", "[J"


def empty_dump():
    """Returns a dump without bytes, for the capacity of the program."""
    return Dump(ROWS, REFS)


class PassedTables:
    """The tables that are passed to the text: those that reading the first `length` bytes of a dump gives (all, if no length is
    given), with changes. The name bytes are the file."""

    def __init__(self, dump, length=None):
        self.file = dump.bytes[:length]
        self.reply, self.place, _, rows, refs, bits = self.read_answer = dump.answer_at(len(self.file))
        self.header = dict(dump.header) if bits else dict.fromkeys(dump.header, 0)
        self.numbers = [n for row in dump.rows[:rows] for n in row]
        self.refs = dump.refs[:refs]

    # ---- changes

    def add_change(self, table, index, number):
        """Adds a change to the file. The first one begins right after the end tag."""
        assert self.reply == 0 and (len(self.file) - self.place) % 24 == 0
        self.file += encode_unsigned(table, 8) + encode_unsigned(index, 8) + encode_unsigned(number, 8)

    def change(self, i=None, **numbers):
        """Changes numbers of row i, or of the header if no row is given."""
        for name, n in numbers.items():
            if i is None:
                assert self.header[name] != n
                self.add_change(0, [*self.header].index(name), n)
                self.header[name] = n
            else:
                at = WIDTH * i + ROW.index(name)
                assert self.numbers[at] != n
                self.add_change(1, at, n)
                self.numbers[at] = n
        return self

    def change_ref(self, i, ref):
        self.add_change(2, i, ref)
        self.refs[i] = ref
        return self

    def resize(self, more_numbers=0, more_refs=0):
        """Passes more numbers of each table, or fewer."""
        for index, table, more in (6, self.numbers, more_numbers), (7, self.refs, more_refs):
            count = len(table) + more
            self.add_change(0, index, count)
            table[count:] = []
            table += [UNREAD] * (count - len(table))
        assert len(self.numbers) <= WIDTH * ROWS + MORE and len(self.refs) <= REFS
        return self

    # ---- the text

    def rows(self):
        """Returns the whole rows, by the names of their numbers."""
        return [dict(zip(ROW, self.numbers[i : i + WIDTH])) for i in range(0, len(self.numbers) - WIDTH + 1, WIDTH)]

    def string(self, place, length):
        assert place + length <= len(self.file)
        return self.file[place : place + length].decode("ascii")

    def address(self, n):
        digits = self.header["bits"] // 4
        assert n < 16**digits
        return f"0x{n:0{digits}X}"

    def class_missing(self):
        """Returns the index of the first object or object array whose class is not among the rows; None if there is none."""
        rows = self.rows()
        known = {row["address"] for row in rows if row["kind"] == CLASS}
        return next((i for i, row in enumerate(rows) if row["kind"] in (OBJECT, ARRAY) and row["class_"] not in known), None)

    def row_lines(self, row, classes):
        """Returns the two lines of a row; `classes` are the class rows in order, each with its name."""
        kind, class_ = row["kind"], row["class_"]
        its_class, its_name = next(((c, name) for c, name in classes if c["address"] == class_), (None, None))
        if kind == CLASS:
            size, type = 0, self.string(row["name_place"], row["name_length"])
        elif kind == OBJECT:
            size, type = its_class["size"], its_name
        elif kind == ARRAY:
            size, type = 4 * row["size"], "[" + its_name if its_name[0] == "[" else "[L" + its_name + ";"
        else:
            size, type = 4 * row["size"], TYPES[row["type"]]
            class_ = next((c["address"] for c, name in classes if name == type), 0)
        refs = self.refs[row["first"] : row["first"] + row["count"]]
        yield f"{self.address(row['address'])} [{size}] {'CLS' if kind == CLASS else 'OBJ'} {type}"
        yield " ".join(map(self.address, [class_, *refs]))

    def lines(self):
        header, rows = self.header, self.rows()
        classes = [(row, self.string(row["name_place"], row["name_length"])) for row in rows if row["kind"] == CLASS]
        yield "// Version: " + (self.string(header["place"], header["len"]) if header["vm"] else "")
        for row in rows:
            yield from self.row_lines(row, classes)
        kinds = [row["kind"] for row in rows]
        by_kind = [kinds.count(kind) for kind in (CLASS, OBJECT, ARRAY, PRIMITIVE)]
        yield "// Breakdown - Classes: {}, Objects: {}, ObjectArrays: {}, PrimitiveArrays: {}".format(*by_kind)
        refs = sum(row["count"] for row in rows)
        nulls = sum(row["length"] - row["count"] for row in rows if row["kind"] == ARRAY)
        yield f"// EOF:  Total 'Objects',Refs(null) : {len(rows)},{refs + nulls}({nulls})"

    def text(self):
        assert self.class_missing() is None
        return "".join(each + "\n" for each in self.lines())


# ---- samples: the bytes of a file, and the lines that the program prints for it


def passed(dump):
    """Returns the tables that are passed to the text for a dump; tables are returned as they are."""
    return dump if isinstance(dump, PassedTables) else PassedTables(dump)


def written(dump):
    """Returns the sample of a dump, or of the tables passed for it, that is written as text."""
    t = passed(dump)
    text = t.text()
    n = len(text)
    assert max(n, len(t.file)) < BYTES
    answer = f"reply 0 place {n}"
    report = [answer_line(t.read_answer), "size " + answer, "text " + answer, *text.split("\n")[:-1], "rest unchanged"]
    return t.file, report + [f"capacity {n} reply 0 place {n} same", f"capacity {n - 1} reply 17 place 0 unchanged"]


def refused(dump, reply, place=0):
    """Returns the sample of one that is refused with any capacity."""
    t = passed(dump)
    assert reply != 18 or place == t.class_missing()
    answer = f"reply {reply} place {place}"
    report = [answer_line(t.read_answer), "size " + answer, "text " + answer, "rest unchanged"]
    return t.file, report + [f"capacity 0 {answer} unchanged"]
