"""Writes the object files that rows name, into ../data.

usage: generate.py            writes them
       generate.py --check    exits 1 where one of ../data differs from what it would write

Three are worked by hand from the tables of the ECOFF object format for Alpha (filehdr, aouthdr, scnhdr, HDRR, EXTR, reloc.h):
three_words.o, whole.o, which breaks no rule and has every kind of relocation, and far_data.o, whose slots hold addresses 64 KiB
from the text. compiled.o and assembled.o are what a compiler and an assembler for Alpha wrote, as bytes at their offsets with
zeros between.
"""
import pathlib
import struct
import sys

DATA = pathlib.Path(__file__).parent.parent / "data"
FILE_HEADER, OPTIONAL_HEADER, SECTION_HEADER, SYMBOLIC_HEADER = 24, 80, 64, 144
REFQUAD, GPREL32, LITERAL, LITUSE, GPDISP, BRADDR, HINT = 2, 3, 4, 5, 6, 7, 8


class Section:
    """A section: `size` is that of its header, and the bytes stand in the file. A relocation is an address, an index, a type,
    and whether it is external."""

    def __init__(self, name, addr, size, content=b"", relocs=()):
        self.name, self.addr, self.size = name, addr, size
        self.content, self.relocs = bytes(content), relocs
        self.bytes_at = self.relocs_at = 0

    def header(self):
        name = self.name.encode().ljust(8, b"\0")
        numbers = (0, self.addr, self.size, self.bytes_at, self.relocs_at, 0)
        return name + struct.pack("<6QHHI", *numbers, len(self.relocs), 0, 0)


def aligned(file, to):
    return file + bytes(-len(file) % to)


def symbolic_part(at, symbols):
    """The symbolic header that stands at `at`, the symbols and their names. A symbol is a name, a value and a class."""
    names = b"".join(name.encode() + b"\0" for name, _, _ in symbols)
    header = bytearray(SYMBOLIC_HEADER)
    struct.pack_into("<H", header, 0, 0x1992)
    struct.pack_into("<I", header, 32, len(names))
    struct.pack_into("<I", header, 44, len(symbols))
    struct.pack_into("<Q", header, 112, at + SYMBOLIC_HEADER + 24 * len(symbols))
    struct.pack_into("<Q", header, 136, at + SYMBOLIC_HEADER)
    table, index = b"", 0
    for name, value, storage in symbols:
        table += struct.pack("<QIIQ", value, index, storage * 64, 0)
        index += len(name) + 1
    return bytes(header) + table + names


def object_file(gp, sections, symbols):
    """The headers, each section's bytes at the next multiple of 16, each section's relocations at the next multiple of 8, and
    at the next multiple of 8 the symbols. What is empty has the offset 0."""
    file = bytes(FILE_HEADER + OPTIONAL_HEADER + SECTION_HEADER * len(sections))
    for section in sections:
        if section.content:
            file = aligned(file, 16)
            section.bytes_at = len(file)
            file += section.content
    for section in sections:
        if section.relocs:
            file = aligned(file, 8)
            section.relocs_at = len(file)
            for place, index, kind, external in section.relocs:
                file += struct.pack("<QIBBH", place, index, kind, external, 0)
    file = aligned(file, 8)
    header = struct.pack("<HHIQIHH", 0x183, len(sections), 0, len(file), 144, 80, 0)
    optional = bytes(72) + struct.pack("<Q", gp)
    heads = b"".join(section.header() for section in sections)
    front = header + optional + heads
    return front + file[len(front):] + symbolic_part(len(file), symbols)


def words(*numbers):
    return struct.pack(f"<{len(numbers)}I", *numbers)


def quads(*numbers):
    return struct.pack(f"<{len(numbers)}Q", *numbers)


def three_words():
    """lda r0,1(r31); lda r16,7(r31); callsys."""
    text = words(0x201F0001, 0x221F0007, 0x83)
    return object_file(0, [Section(".text", 0, 12, text)], [("__start", 0, 1)])


def whole_sections():
    """A pair that sets the GP value to 0x8070, two loads of addresses with their uses, a call by a register and one by a branch
    that goes nowhere by itself, two branches inside the text, and a system call. `.rdata` holds the address of a word of the
    text and the same less the GP value, `.data` and `.lita` nothing to add to a symbol and the address of the data."""
    text = words(0x27BB0001, 0x23BD8070, 0xA43D8000, 0xA4410008, 0xA77D8008, 0x6B5B4000, 0xD3401000, 0xE4200003)
    text += words(0xC3FFFFF7, 0x47FF041F, 0x47FF041F, 0x83)
    of_text = [
        (0, 4, GPDISP, False),
        (8, 13, LITERAL, False),
        (0x0C, 1, LITUSE, False),
        (0x10, 13, LITERAL, False),
        (0x14, 3, LITUSE, False),
        (0x14, 1, HINT, False),
        (0x18, 2, BRADDR, True),
    ]
    of_rdata = [(0x30, 1, REFQUAD, False), (0x38, 1, GPREL32, False), (0, 0, 0, False)]
    slots = quads(0, 0x40)
    return [
        Section(".text", 0, 48, text, of_text),
        Section(".rdata", 0x30, 16, quads(0x20, 0xFFFF7FB0), of_rdata),
        Section(".data", 0x40, 16, slots, [(0x40, 1, REFQUAD, True), (0x48, 3, REFQUAD, False)]),
        Section(".bss", 0x50, 32),
        Section(".lita", 0x70, 16, slots, [(0x70, 2, REFQUAD, True), (0x78, 3, REFQUAD, False)]),
        Section(".comment", 0, 4, b"gcc\0", [(0, 0, 9, False)]),
    ]


WHOLE_SYMBOLS = [("__start", 0, 1), ("table", 0x40, 2), ("puts", 0, 6), ("pool", 24, 17), ("five", 5, 5)]


def whole():
    return object_file(0x8070, whole_sections(), WHOLE_SYMBOLS)


def far_data_sections():
    """Loads of the slots' addresses, `.data` + 65519 and + 65520; stores of them; their distance; and a system call."""
    text = words(0xA43D8000, 0xA45D8008, 0xB43E0000, 0xB45E0008, 0x40410530, 0x201F0001, 0x83)
    return [
        Section(".text", 0, 28, text, [(0, 13, LITERAL, False), (4, 13, LITERAL, False)]),
        Section(".data", 32, 65536, bytes(65536)),
        Section(".lita", 65568, 16, quads(65551, 65552), [(65568, 3, REFQUAD, False), (65576, 3, REFQUAD, False)]),
    ]


def far_data():
    return object_file(98336, far_data_sections(), [("__start", 0, 1)])


def joined(pieces):
    end = max(at + len(digits) // 2 for at, digits in pieces)
    file = bytearray(end)
    for at, digits in pieces:
        file[at : at + len(digits) // 2] = bytes.fromhex(digits)
    return bytes(file)


# A function that is called by another object and calls one, from a compiler.
COMPILED = [
    (0, "830102"),
    (8, "3802"),
    (16, "9000000050"),
    (96, "9080"),
    (104, "2e74657874"),
    (128, "90"),
    (136, "f0"),
    (144, "9801"),
    (160, "07"),
    (168, "2e6c69746100000090"),
    (184, "90"),
    (192, "18"),
    (200, "8001"),
    (208, "0802"),
    (224, "03"),
    (
        240,
        "0100bb279080bd23f0ffde2300809da408003eb508803da500005eb7000024a0000049a0053040400000a9b0a1092540"
        "010020e40000a4b001001f20080000f6000049b000005ea708003ea51000de230180fa6b0000fe2f1f04ff470000fe2f"
        "3031004210807da700405b6b0100ba272480bd23000049a022314040000049b000005ea708003ea51000de230180fa6b"
    ),
    (416, "04000000060000000c"),
    (432, "0d0000000400000014"),
    (448, "0d0000000400000064"),
    (464, "0d0000000400000068"),
    (480, "030000000500000068"),
    (496, "03000000080100006c"),
    (512, "040000000600000090"),
    (528, "010000000201000098"),
    (544, "0200000002010000a0"),
    (560, "03000000020100009219"),
    (600, "1e"),
    (612, "04"),
    (680, "2803"),
    (704, "c802"),
    (724, "40"),
    (744, "080000008001"),
    (768, "110000008001"),
    (792, "170000008001"),
    (808, "69735f6576656e006d617864657074680064657074680069735f6f646400"),
]

# A program that calls two functions of other objects, from an assembler.
ASSEMBLED = [
    (0, "830104"),
    (8, "a002"),
    (16, "900000005000040107010b030200000040"),
    (40, "10"),
    (72, "40"),
    (80, "50"),
    (91, "44000000003080"),
    (104, "2e74657874"),
    (128, "40"),
    (136, "7001"),
    (144, "c001"),
    (160, "0c000000200000002e6461746100000040"),
    (184, "40"),
    (200, "b001"),
    (228, "400000002e6c69746100000040"),
    (248, "40"),
    (256, "10"),
    (264, "b001"),
    (272, "8002"),
    (288, "02"),
    (295, "042e6273730000000050"),
    (312, "50"),
    (356, "80"),
    (
        370,
        "60c30100bb272c80bd23f0ffde2310807da700405b6b0100ba271880bd231004e04718807da700405b6b0100ba270480"
        "bd23000000001f04ff470000fe2f"
    ),
    (448, "04"),
    (456, "040000000600000008"),
    (472, "01"),
    (480, "10"),
    (488, "0d0000000400000014"),
    (504, "030000000500000014"),
    (520, "010000000801000018"),
    (536, "04000000060000001c"),
    (552, "01"),
    (560, "24"),
    (568, "0d0000000400000028"),
    (584, "030000000500000028"),
    (600, "02000000080100002c"),
    (616, "040000000600000030"),
    (632, "01"),
    (640, "40"),
    (648, "010000000201000048"),
    (664, "020000000201000092190b030e"),
    (684, "0100000004"),
    (696, "04000000300000002000000001"),
    (716, "0300000010"),
    (728, "3003"),
    (744, "4003"),
    (752, "8003"),
    (768, "c003"),
    (776, "d003"),
    (785, "04"),
    (792, "2004"),
    (808, "8004"),
    (817, "1130111110111110"),
    (848, "01"),
    (876, "100000000a00000014000000000100001e001a"),
    (904, "010000004b40"),
    (920, "240000004610000038"),
    (936, "240000004810"),
    (952, "0100000048"),
    (964, "03"),
    (977, "2e2f2e2f2e2f2e2f2e2f2e2f2e2f2e2f2e2f2e2f2e2f2e2f2e2f2f73746172742e73005f5f7374617274"),
    (1024, "5f5f7374617274006f6d5f6d61696e007379735f65786974"),
    (1072, "09"),
    (1080, "2c"),
    (1088, "01"),
    (1100, "04"),
    (1108, "0e"),
    (1124, "01"),
    (1132, "03"),
    (1164, "4610"),
    (1184, "0800000081f1ffff"),
    (1208, "1000000081f1ffff"),
    (1223, "00"),
]

FILES = {
    "three_words.o": three_words,
    "whole.o": whole,
    "far_data.o": far_data,
    "compiled.o": lambda: joined(COMPILED),
    "assembled.o": lambda: joined(ASSEMBLED),
}


def main():
    if sys.argv[1:] == ["--check"]:
        other = [name for name, make in FILES.items() if (DATA / name).read_bytes() != make()]
        other += [path.name for path in DATA.iterdir() if path.name not in FILES]
        print("\n".join(f"differs: {name}" for name in other) or f"{len(FILES)} files agree")
        sys.exit(1 if other else 0)
    DATA.mkdir(exist_ok=True)
    for name, make in FILES.items():
        (DATA / name).write_bytes(make())


if __name__ == "__main__":
    main()
