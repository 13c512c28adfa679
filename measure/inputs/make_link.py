#!/usr/bin/env python3
"""Makes large programs, to see how fast they are linked: make_link.py FOLDER

text0.o .. text15.o   262,136 words each, with a LITERAL on every fourth one, on 8,192 slots each; the first has `__start`
name0.o .. name255.o  256 objects with 1,000,000 symbols in all: half of each object's are its own, half the next object's
"""
import struct
import sys

from make_large import LITA, LITERAL, MOST, REFQUAD, object_file, reloc
from make_many import linked

WORDS = 4 * MOST
SLOTS = 8192
DATA_BYTES = 8 * SLOTS


def text(obj):
    """`ldq r1,slot(r29)`, from the last slot to the first, and three additions, again and again; the slots name the quadwords of
    `.data`. A link orders slots by their first use, so each load becomes another word."""
    size = 4 * WORDS
    data = (size + 15) // 16 * 16
    lita = data + DATA_BYTES
    words = b"".join(
        struct.pack("<IIII", 0xA43D0000 | (8 * (-1 - k % SLOTS) + 32768) & 0xFFFF, 0x41230409, 0x41230409, 0x41230409) for k in range(MOST)
    )
    loads = b"".join(reloc(16 * k, LITA, LITERAL, 0) for k in range(MOST))
    slots = b"".join(struct.pack("<Q", data + 8 * k) for k in range(SLOTS))
    names = b"".join(reloc(lita + 8 * k, 3, REFQUAD, 0) for k in range(SLOTS))
    table = [(b".text", 0, words, loads), (b".data", data, bytes(DATA_BYTES), b""), (b".lita", lita, slots, names)]
    return object_file(lita + 32768, table, [(b"__start", 0, 1)] if obj == 0 else [(b"text_%02d" % obj, 0, 1)])


if __name__ == "__main__":
    for title, files in ("text", (text(obj) for obj in range(16))), ("name", linked(256)):
        for k, file in enumerate(files):
            with open(f"{sys.argv[1]}/{title}{k}.o", "wb") as out:
                out.write(file)
