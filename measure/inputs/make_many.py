#!/usr/bin/env python3
"""Makes lists of large object files, to see how fast their names are resolved: make_many.py FOLDER

few.objs    16 objects with 1,000,000 symbols in all: half of each object's are its own, half are the next object's
many.objs   256 objects of the same kind
text.objs   a text of 4 MiB with 65,534 LITERALs on 8,192 slots, and an object that has what the slots name

Each list has its files one behind the other, each behind its length in 8 bytes.
"""
import struct
import sys

from make_large import LITA, LITERAL, MOST, REFQUAD, object_file, reloc

UNDEFINED, TEXT, DATA = 6, 1, 2


def framed(files):
    return b"".join(struct.pack("<Q", len(file)) + file for file in files)


def name(obj, k):
    return b"symbol_%03d_number_%05d" % (obj, k)


def linked(objects):
    """Objects, each with a field for as many symbols as 33,554,432 bytes of data have room for."""
    each = 1000000 // objects - 1
    fields = min(each // 2, 33554432 // 8 // objects, MOST) // 2 * 2
    for obj in range(objects):
        after = (obj + 1) % objects
        own = [(name(obj, k), 16, DATA) for k in range(each // 2)]
        others = [(name(after, k), 0, UNDEFINED) for k in range(each // 2)]
        start = [(b"__start", 0, TEXT if obj == 0 else UNDEFINED)]
        relocs = b"".join(reloc(16 + 8 * k, 1 + each // 2 + k, REFQUAD, 1) for k in range(fields))
        table = [(b".text", 0, struct.pack("<I", 0x83), b""), (b".data", 16, bytes(8 * fields), relocs)]
        yield object_file(0, table, start + own + others)


def loads():
    size = 4 << 20
    words = b"".join(struct.pack("<I", 0xA43D0000 | (8 * (k % 8192) - 32768) & 0xFFFF) for k in range(MOST))
    words += struct.pack("<I", 0x47FF041F) * (size // 4 - MOST - 1) + struct.pack("<I", 0x83)
    relocs = b"".join(reloc(4 * k, LITA, LITERAL, 0) for k in range(MOST))
    slots = b"".join(reloc(size + 8 * k, 1 + k, REFQUAD, 1) for k in range(8192))
    names = [name(1, k) for k in range(8192)]
    table = [(b".text", 0, words, relocs), (b".lita", size, bytes(65536), slots)]
    yield object_file(size + 32768, table, [(b"__start", 0, TEXT)] + [(n, 0, UNDEFINED) for n in names])
    yield object_file(0, [(b".data", 0, bytes(65536), b"")], [(n, 8 * k, DATA) for k, n in enumerate(names)])


if __name__ == "__main__":
    for title, files in ("few", linked(16)), ("many", linked(256)), ("text", loads()):
        with open(f"{sys.argv[1]}/{title}.objs", "wb") as out:
            out.write(framed(list(files)))
