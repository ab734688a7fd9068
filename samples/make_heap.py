"""Makes dumps of a small heap, in which one growing array holds sessions that were never closed: heap.phd is complete,
heap-cut.phd ends where a machine stopped while it wrote the dump. heap-late-cut.phd ends at the same share of a dump that has its
class records after the objects, so that it has none.

usage: python3 samples/make_heap.py FOLDER
"""

import sys
from pathlib import Path

from dump import Dump

CLASSES, SESSIONS, OBJECTS = 0x8000_0000, 40, 0x8010_0000
NAMES = [b"java/lang/Object", b"java/lang/String", b"[C", b"shop/Session", b"shop/Cart", b"[Lshop/Session;"]


ADDRESS = {name: CLASSES + 0x100 * i for i, name in enumerate(NAMES)}


def heap(classes_last=False):
    d = Dump(row_capacity=1000, ref_capacity=1000).with_header(bits=64, vm=b"JRE 17.0.9 OpenJ9 linux-amd64")
    for add in [add_objects, add_classes] if classes_last else [add_classes, add_objects]:
        add(d)
    return d.end()


def add_classes(d):
    for name in NAMES:
        class_ = 0 if name == NAMES[0] else ADDRESS[NAMES[0]]
        d.klass(ADDRESS[name], name, size=24, class_=class_, code=2 if name == NAMES[0] else 1)


def add_objects(d):
    text, session, cart = ADDRESS[b"java/lang/String"], ADDRESS[b"shop/Session"], ADDRESS[b"shop/Cart"]
    for i in range(SESSIONS):
        a = OBJECTS + 0x80 * i
        if i == 0:
            d.long(a, session, [a + 0x20, a + 0x60], code=2)
            d.medium(a + 0x20, text, [a + 0x40])
        else:
            d.short(a, 0, [a + 0x20, a + 0x60], code=0)
            d.short(a + 0x20, 1, [a + 0x40])
        d.primitive(a + 0x40, type=1, length=6 + i % 3, size=8)
        if i == 0:
            d.medium(a + 0x60, cart)
        else:
            d.short(a + 0x60, 2)
    refs = [OBJECTS + 0x80 * i for i in range(SESSIONS)]
    d.array(OBJECTS + 0x80 * SESSIONS, session, refs, size=2 * SESSIONS + 24, length=64, width=1)


def cut(dump):
    return dump[: len(dump) * 3 // 4]


if __name__ == "__main__":
    folder = Path(sys.argv[1])
    (folder / "heap.phd").write_bytes(heap().bytes)
    (folder / "heap-cut.phd").write_bytes(cut(heap().bytes))
    (folder / "heap-late-cut.phd").write_bytes(cut(heap(classes_last=True).bytes))
