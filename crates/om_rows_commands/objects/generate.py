#!/usr/bin/env python3
"""Writes the object files and images that the rows of the command name, into ../data: generate.py [--check]

With `--check` it writes nothing, and says which files in ../data are not as it would write them, with status 1 if any is.
Each object and image is written here in assembly, with its sections, symbols and relocations; assembly.py says how, and
rewritten.py has the objects of which a link at the default level makes something else, generated.py a large one.
"""
import os
import struct
import sys

from assembly import COMMON, DATA, DATA_AT, GPREL32, REFQUAD, TEXT, TEXT_AT, UNDEFINED, Object, ends
from generated import GENERATED
from rewritten import OBJECTS

HEAP = "lda r0,17(r31)\nlda r16,0(r31)\ncallsys\nbis r31,r0,r9\n"


def writes(count):
    return "lit r17,.rdata\nlda r16,1(r31)\nlda r18,%d(r31)\nlda r0,4(r31)\ncallsys\n" % count + ends(0)


def common(count):
    return "lit r17,buf\nlda r16,1(r31)\nlda r18,%d(r31)\nlda r0,4(r31)\ncallsys\n" % count + ends(0)


HI = (2, 8, b"hi\n")
PRINTS = """
pair r27
lda r30,-32(r30)
lit r16,.rdata
lit r27,puts
jsr r26,(r27)
pair r26
lit r1,.data
lit r2,.data+32
bis r31,r31,r9
loop: ldq r3,0(r1)
addq r9,r3,r9
lda r1,8(r1)
cmpult r1,r2,r4
bne r4,loop
and r9,#1,r5
lit r6,.rdata+16
s4addq r5,r6,r6
ldl r7,0(r6)
addq r7,r29,r7
jmp r31,(r7)
c0: lda r16,0(r31)
br r31,done
c1: lda r16,1(r31)
done: lda r0,1(r31)
callsys
"""
PUTS = """
pair r27
bis r31,r16,r1
next: ldq_u r2,0(r1)
extbl r2,r1,r2
beq r2,end
stb r2,-8(r30)
lda r17,-8(r30)
lda r16,1(r31)
lda r18,1(r31)
lda r0,4(r31)
callsys
lda r1,1(r1)
br r31,next
end: ret r31,(r26)
"""


def prints():
    it = Object(PRINTS, [(2, 24, b"hi\n"), (3, 32, struct.pack("<4Q", 1, 2, 3, 4))])
    it.more = [(2, 16, GPREL32, 1, it.labels["c0"]), (2, 20, GPREL32, 1, it.labels["c1"])]
    return it


FILES = {
    "EXITS_SEVEN": Object("lda r0,1(r31)\nlda r16,7(r31)\ncallsys\n"),
    "WANTS_FOO": Object("lit r1,foo\n" + ends(0)),
    "HAS_FOO": Object("lit r1,bar\n" + ends(0) + "foo: halt\n", symbols=[("foo", 16, TEXT), ("bar", 0, UNDEFINED)]),
    "IS_FOO": Object("foo: halt\n", symbols=[("foo", 0, TEXT)], start=False),
    "COMMON_24": Object(common(24), symbols=[("buf", 8, COMMON)]),
    "COMMON_25": Object(common(25), symbols=[("buf", 8, COMMON)]),
    "LARGER": Object("halt\n", symbols=[("buf", 24, COMMON)], start=False),
    "PRINTS": prints(),
    "PUTS": Object(PUTS, symbols=[("puts", 0, TEXT)], start=False),
    "SHOWS": Object("stq r30,0(r30)\nldl r1,0(r30)\n" + ends(0)),
    "WRITES_8": Object(writes(8), [HI]),
    "WRITES_9": Object(writes(9), [HI]),
    "READS": Object("lda r0,3(r31)\nlda r16,0(r31)\nlda r17,0(r30)\nlda r18,8(r31)\ncallsys\n" + ends("r0")),
    "FOREVER": Object("br r31,-1\n"),
    "STRAY_ADDRESS": Object(ends(0), [(3, 8, b"")], relocs=[(3, 0, REFQUAD, "__start", 2)]),
    "NO_SUCH_CALL": Object("lda r16,0(r31)\nlda r0,99(r31)\ncallsys\n" + ends("r0")),
    "RETURNS_TO_END": Object("br r31,1\nret r31,(r26)\nbsr r26,-2\n"),
    "OVERFLOWS": Object("lda r1,-1(r31)\nsrl r1,#1,r1\naddq/v r1,#1,r1\n"),
    "UNALIGNED": Object("ldq r1,4(r30)\n"),
    "NO_ACCESS": Object("ldq r1,0(r31)\n"),
    "HALTS": Object("halt\n"),
    "HEAP": Object(HEAP + "lda r16,16(r9)\nlda r0,17(r31)\ncallsys\nlda r1,5(r31)\nstq r1,8(r9)\nldq r3,8(r9)\n" + ends("r3")),
    "PAST_HEAP": Object(HEAP + "lda r16,16(r9)\nlda r0,17(r31)\ncallsys\nlda r1,5(r31)\nstq r1,16(r9)\nldq r3,8(r9)\n" + ends("r3")),
    "TOO_LARGE_HEAP": Object(HEAP + "ldah r16,257(r9)\nlda r0,17(r31)\ncallsys\n" + ends("r0")),
    "LARGEST_HEAP": Object(HEAP + "ldah r16,256(r9)\nlda r0,17(r31)\ncallsys\n" + ends("r0")),
    "CALLS_F": Object("bsr r26,f\n" + ends("r0")),
    "IS_F": Object("lda r0,9(r31)\nret r31,(r26)\n", symbols=[("f", 0, TEXT)], start=False),
    "TWO_ADDENDS": Object(
        "lit r1,g\nlit r2,g+8\nstq r1,0(r30)\nstq r2,8(r30)\n" + ends(0) + "g: " + 3 * "bis r31,r31,r31\n" + "ret r31,(r26)\n",
        symbols=[("g", 28, TEXT)],
    ),
    "WRITES_TWICE": Object(writes(8).replace("callsys\n", "callsys\nlda r0,4(r31)\ncallsys\n", 1), [HI]),
    "KEEPS_GP": Object(
        "pair r27\nstq r29,0(r30)\nlit r27,f\njsr r26,(r27)\nldq r29,0(r30)\nlit r27,f\njsr r26,(r27)\n" + ends("r0")
    ),
    "LOADS_NINE": Object("pair r27\nlit r0,%d\nret r31,(r26)\n" % (2**40 + 9), symbols=[("f", 0, TEXT)], start=False),
    "CALLS_ACROSS": Object("pair r27\nlit r27,f\njsr r26,(r27)\npair r26\n" + ends("r0")),
    "SETS_GP": Object("pair r27\nlda r0,9(r31)\nret r31,(r26)\n", symbols=[("f", 0, TEXT)], start=False),
    "MUCH_DATA": Object(ends(0), [(6, 33554440, b"")]),
    "START_IN_DATA": Object("halt\n", [(3, 8, b"")], symbols=[("__start", 16, DATA)], start=False),
    "CALLS_DATA": Object("bsr r26,f\n" + ends(0), [(3, 8, b"")], symbols=[("f", 16, DATA)]),
}


def section(name, address, size, place):
    return struct.pack("<8sQQQQQQHHI", name, 0, address, size, place, 0, 0, 0, 0, 0)


def image(words):
    """The file of an image of a text without data, which is entered at its start, with a map that says nothing."""
    code = b"".join(struct.pack("<I", it) for it in words)
    table = b"OMMAP1\0\0" + bytes(16)
    at = 368
    map_at = (at + len(code) + 15) // 16 * 16
    optional = bytearray(80)
    struct.pack_into("<Q", optional, 32, TEXT_AT)
    struct.pack_into("<Q", optional, 72, DATA_AT + 32768)
    heads = (
        section(b".text", TEXT_AT, len(code), at)
        + section(b".data", DATA_AT, 0, 0)
        + section(b".bss", DATA_AT, 0, 0)
        + section(b".ommap", 0, len(table), map_at)
    )
    file = struct.pack("<HHIQIHH", 0x183, 4, 0, 0, 0, 80, 0) + bytes(optional) + heads
    return (file.ljust(at, b"\0") + code).ljust(map_at, b"\0") + table


EXIT = "lda r0,1(r31)\ncallsys\n"
GROWN = HEAP + "lda r16,16(r9)\nlda r0,17(r31)\ncallsys\nlda r1,5(r31)\n"
IMAGES = {
    "EXITS_SEVEN": "lda r16,7(r31)\n" + EXIT,
    "FOREVER": "br r31,-1\n",
    "OVERFLOWS": "lda r1,-1(r31)\nsrl r1,#1,r1\naddq/v r1,#1,r1\n",
    "UNALIGNED": "ldq r1,4(r30)\n",
    "NO_ACCESS": "ldq r1,0(r31)\n",
    "HALTS": "halt\n",
    "HEAP": GROWN + "stq r1,8(r9)\nldq r3,8(r9)\n" + ends("r3"),
    "PAST_HEAP": GROWN + "stq r1,16(r9)\n",
    "TOO_LARGE_HEAP": HEAP + "ldah r16,257(r9)\nlda r0,17(r31)\ncallsys\n" + ends("r0"),
    "LARGEST_HEAP": HEAP + "ldah r16,256(r9)\nlda r0,17(r31)\ncallsys\n" + ends("r0"),
    "WRITES": "lda r16,1(r31)\nlda r17,-8192(r30)\nlda r18,4097(r31)\nlda r0,4(r31)\ncallsys\nlda r16,0(r31)\n" + EXIT,
    "READS": "lda r0,3(r31)\nlda r16,0(r31)\nlda r17,0(r30)\nlda r18,8(r31)\ncallsys\n" + ends("r0"),
}


def files():
    """The files of ../data by their names."""
    found = {f"{name.lower()}.o": it.bytes() for name, it in {**FILES, **OBJECTS, **GENERATED}.items()}
    for name, source in IMAGES.items():
        found[f"{name.lower()}.p"] = image(Object(source).words)
    return found


def differing(folder, wanted):
    """The names of the files that stand in a folder and are not these, or are not there."""
    found = {}
    for name in os.listdir(folder):
        with open(os.path.join(folder, name), "rb") as it:
            found[name] = it.read()
    return sorted(name for name in {*found, *wanted} if found.get(name) != wanted.get(name))


def main():
    folder = os.path.join(os.path.dirname(os.path.abspath(__file__)), "../data")
    wanted = files()
    if sys.argv[1:] == ["--check"]:
        differ = differing(folder, wanted)
        print(f"{len(wanted)} files, {len(differ)} differ", *differ)
        sys.exit(1 if differ else 0)
    for name, content in wanted.items():
        with open(os.path.join(folder, name), "wb") as out:
            out.write(content)


if __name__ == "__main__":
    main()
