#!/usr/bin/env python3
"""Makes large programs, to see how fast they are rewritten: make_full.py FOLDER

blockN_K.o             blocks of eight words: two loads of addresses, the load behind each, additions and a branch; N objects
small4_K.o             blocks of two words, every second one with a load of an address that the block behind it reads
loads4_K.o             one block each, of loads of addresses with one use each
uses.o                 one load of an address, with 1,000,000 uses in one block
chainN_K.o             two of N / 2 loads of addresses each, in blocks of their own; each is dead only when the next one is
loopsN_K.o             the same, with a loop between each two
jumps.o                1,000,000 calls by a register, each in a block of its own, behind which each may land
conds.o                1,000,000 branches with conditions, each in a block of its own: what an honest input of that size takes

Each object sets its GP at its start and has its own table; each but the last ends with a branch to the next one.
"""
import struct
import sys

from make_large import BRADDR, LITA, LITERAL, MOST, REFQUAD, object_file, reloc

GPDISP, TEXT, UNDEFINED, SLOTS = 6, 1, 6, 8192
LOADS = MOST - 2
MILLION = 1000000
CHAINS = 25000, 50000, 100000


def ldq(ra, disp, rb):
    return 0xA4000000 | ra << 21 | rb << 16 | disp & 0xFFFF


def addq(ra, rb, rc):
    return 0x40000400 | ra << 21 | rb << 16 | rc


def bne(ra, disp):
    return 0xF4000000 | ra << 21 | disp & 0x1FFFFF


def beq(ra, disp):
    return 0xE4000000 | ra << 21 | disp & 0x1FFFFF


BR, BR_LINK, HALT = 0xC3E00000, 0xC3600000, 0
JSR, LESS_ONE = 0x6B5B4000, 0x40403522


def framed(body, at, obj, last, data_bytes):
    """An object of these words, with loads of addresses at these numbers, from the last slot to the first."""
    words = [BR_LINK, 0, 0, *body, HALT if last else BR]
    size = 4 * len(words)
    data = -(-size // 16) * 16
    lita = data + data_bytes
    gp = lita + 32768
    high = (gp - 4 + 32768) // 65536
    words[1] = 0x27BB0000 | high & 0xFFFF
    words[2] = 0x23BD0000 | gp - 4 - 65536 * high & 0xFFFF
    loads = []
    for k, number in enumerate(at):
        words[3 + number] |= 8 * (-1 - k % SLOTS) + 32768 & 0xFFFF
        loads.append(reloc(4 * (3 + number), LITA, LITERAL, 0))
    relocs = reloc(4, 4, GPDISP, 0) + b"".join(loads)
    relocs += b"" if last else reloc(size - 4, 1, BRADDR, 1)
    slots = b"".join(struct.pack("<Q", data + 8 * k % data_bytes) for k in range(SLOTS))
    fields = b"".join(reloc(lita + 8 * k, 3, REFQUAD, 0) for k in range(SLOTS))
    text = struct.pack("<%dI" % len(words), *words)
    table = [(b".text", 0, text, relocs), (b".data", data, bytes(data_bytes), b""), (b".lita", lita, slots, fields)]
    names = [(b"__start" if obj == 0 else b"text_%02d" % obj, 0, TEXT)]
    names += [] if last else [(b"text_%02d" % (obj + 1), 0, UNDEFINED)]
    return object_file(gp, table, names)


def repeated(group, loads, objects, data_bytes=8 * SLOTS):
    """Objects of a group of words, again and again, of which those at the places of `loads` are loads of addresses."""
    times = LOADS // len(loads)
    at = [len(group) * k + place for k in range(times) for place in loads]
    for obj in range(objects):
        yield framed(group * times, at, obj, obj + 1 == objects, data_bytes)


def chain(count, between):
    """Two objects of loads whose base is what the load before has given."""
    group = [*between, ldq(1, 0, 1), beq(31, 0)]
    for obj in range(2):
        at = [len(group) * k + len(between) for k in range(count // 2)]
        yield framed(group * (count // 2), at, obj, obj == 1, 8 * SLOTS)


def programs():
    first, second = ldq(1, 0, 29), ldq(4, 0, 29)
    eight = [first, ldq(2, 0, 1), addq(2, 3, 3), second, ldq(5, 0, 4), addq(5, 3, 3), addq(3, 3, 6), bne(6, 0)]
    for objects in 4, 8, 16:
        yield "block%d_" % objects, repeated(eight, [0, 3], objects)
    yield "small4_", repeated([first, bne(3, 0), ldq(3, 0, 1), bne(3, 0)], [0], 4)
    yield "loads4_", repeated([first, ldq(2, 0, 1), addq(2, 3, 3), addq(3, 3, 6)], [0], 4, 64)
    yield "uses", [framed([first, *[ldq(2, 8, 1)] * MILLION], [0], 0, True, 64)]
    for count in CHAINS:
        yield "chain%d_" % count, chain(count, [])
        yield "loops%d_" % count, chain(count, [LESS_ONE, bne(2, -2)])
    yield "jumps", [framed([JSR] * MILLION, [], 0, True, 64)]
    yield "conds", [framed([bne(3, 0)] * MILLION, [], 0, True, 64)]


if __name__ == "__main__":
    for title, files in programs():
        for number, file in enumerate(files):
            name = title if title in ("uses", "jumps", "conds") else "%s%d" % (title, number)
            with open(f"{sys.argv[1]}/{name}.o", "wb") as out:
                out.write(file)
