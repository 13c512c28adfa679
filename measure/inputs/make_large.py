#!/usr/bin/env python3
"""Makes large object files, to see how fast they are read: make_large.py FOLDER

text.o     a text of 4 MiB, and as many LITERAL relocations as the format takes (65,534)
branch.o   the same text with as many BRADDR relocations, on branches to another object
tables.o   eight sections with 65,534 relocations each, on every word or quadword
symbols.o  1,000,000 symbols with names of 20 bytes
"""
import struct
import sys

MOST = 65534
LITERAL, REFQUAD, BRADDR = 4, 2, 7
LITA = 13


def reloc(place, index, kind, external):
    return struct.pack("<QIBBH", place, index, kind, external, 0)


def pad(file, to):
    file += bytes(-len(file) % to)


def object_file(gp, sections, symbols):
    """Sections are (name, address, bytes, relocations), symbols (name, value, class)."""
    file = bytearray(struct.pack("<HHIQIHH", 0x183, len(sections), 0, 0, 144, 80, 0))
    file += bytes(72) + struct.pack("<Q", gp)
    for name, addr, data, relocs in sections:
        file += name.ljust(8, b"\0")
        file += struct.pack("<QQQQQQHHI", 0, addr, len(data), 0, 0, 0, len(relocs) // 16, 0, 0)
    for k, (_, _, data, _) in enumerate(sections):
        pad(file, 16)
        struct.pack_into("<Q", file, 104 + 64 * k + 32, len(file))
        file += data
    for k, (_, _, _, relocs) in enumerate(sections):
        if relocs:
            pad(file, 8)
            struct.pack_into("<Q", file, 104 + 64 * k + 40, len(file))
            file += relocs
    pad(file, 8)
    header = len(file)
    struct.pack_into("<Q", file, 8, header)
    file += bytes(144)
    struct.pack_into("<H", file, header, 0x1992)
    struct.pack_into("<Q", file, header + 136, len(file))
    names = bytearray()
    for name, value, kind in symbols:
        file += struct.pack("<QIIII", value, len(names), 64 * kind, 0, 0)
        names += name + b"\0"
    struct.pack_into("<I", file, header + 32, len(names))
    struct.pack_into("<I", file, header + 44, len(symbols))
    struct.pack_into("<Q", file, header + 112, len(file))
    return file + names


def text():
    size = 4 << 20
    words = struct.pack("<I", 0xA43D8000) * (size // 4)
    relocs = b"".join(reloc(4 * k, LITA, LITERAL, 0) for k in range(MOST))
    table = [(b".text", 0, words, relocs), (b".lita", size, bytes(8), b"")]
    return object_file(size + 32768, table, [(b"__start", 0, 1)])


def branch():
    size = 4 << 20
    words = struct.pack("<I", 0xE4200000) * (size // 4 - 1) + struct.pack("<I", 0x83)
    relocs = b"".join(reloc(4 * k, 1, BRADDR, 1) for k in range(MOST))
    table = [(b".text", 0, words, relocs), (b".lita", size, bytes(8), b"")]
    return object_file(size + 32768, table, [(b"__start", 0, 1), (b"f", 0, 6)])


def tables():
    names = [b".text", b".rdata", b".data", b".sdata", b".lit8", b".lit4", b".lita", b".rconst"]
    sections, addr, lita = [], 0, 0
    for name in names:
        size = -(-(4 if name == b".text" else 8) * MOST // 16) * 16
        if name == b".text":
            data = struct.pack("<I", 0xA43D8000) * (size // 4)
            relocs = b"".join(reloc(addr + 4 * k, LITA, LITERAL, 0) for k in range(MOST))
        else:
            data = bytes(size)
            relocs = b"".join(reloc(addr + 8 * k, 1, REFQUAD, 1) for k in range(MOST))
        if name == b".lita":
            lita = addr
        sections.append((name, addr, data, relocs))
        addr += size
    return object_file(lita + 32768, sections, [(b"__start", 0, 1), (b"f", 0, 6)])


def symbols():
    words = bytes.fromhex("01001f2007001f2283000000")
    names = [(b"symbol_number_%06d" % k, 0, 1) for k in range(1000000)]
    return object_file(0, [(b".text", 0, words, b"")], names)


if __name__ == "__main__":
    for name, make in ("text", text), ("branch", branch), ("tables", tables), ("symbols", symbols):
        with open(f"{sys.argv[1]}/{name}.o", "wb") as out:
            out.write(make())
