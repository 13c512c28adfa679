#!/usr/bin/env python3
"""Writes the rows of listings on standard output, or with `--check` says whether the stdin beside this folder has them.

A word for each operation, encoded by the Alpha Architecture Handbook's tables as typed in below (appendix C), and its
text as GNU objdump for Alpha gives it (`alpha-linux-gnu-objdump`, Debian's package binutils-alpha-linux-gnu), in this
project's spelling. It looks at no other file of the crates. A row that differs from objdump's in another way than the
ones listed here ends the script. Each word stands in an image as one that is gone, so that its listing shows the text.

What is meant to differ:

  registers           r0 to r31, where objdump has the names of the calling standard
  literals            #8 in decimal, where objdump has 0x8
  branches            the displacement in words, where objdump has the address that is branched to
  hints of jumps      not shown, where objdump has the hint's number or address behind the operands
  sign extensions     those of a literal have no name in objdump, and are left out here
  other names         operations that objdump names by another of the assembler's names for the same word (OTHER_NAMES)
"""
import os
import re
import struct
import subprocess
import sys
import tempfile

OBJDUMP = "alpha-linux-gnu-objdump"

MEMORY = {"lda": 0x08, "ldah": 0x09, "ldbu": 0x0A, "ldq_u": 0x0B, "ldwu": 0x0C, "stw": 0x0D, "stb": 0x0E,
          "stq_u": 0x0F, "ldl": 0x28, "ldq": 0x29, "stl": 0x2C, "stq": 0x2D}
BRANCH = {"br": 0x30, "bsr": 0x34, "blbc": 0x38, "beq": 0x39, "blt": 0x3A, "ble": 0x3B, "blbs": 0x3C, "bne": 0x3D,
          "bge": 0x3E, "bgt": 0x3F}
JUMP = {"jmp": 0, "jsr": 1, "ret": 2, "jsr_coroutine": 3}
BARRIER = {"trapb": 0x0000, "excb": 0x0400, "mb": 0x4000, "wmb": 0x4400}
OPERATE = {
    0x10: "addl 00, s4addl 02, subl 09, s4subl 0B, cmpbge 0F, s8addl 12, s8subl 1B, cmpult 1D, addq 20, s4addq 22, "
          "subq 29, s4subq 2B, cmpeq 2D, s8addq 32, s8subq 3B, cmpule 3D, addl/v 40, subl/v 49, cmplt 4D, addq/v 60, "
          "subq/v 69, cmple 6D",
    0x11: "and 00, bic 08, cmovlbs 14, cmovlbc 16, bis 20, cmoveq 24, cmovne 26, ornot 28, xor 40, cmovlt 44, "
          "cmovge 46, eqv 48, cmovle 64, cmovgt 66",
    0x12: "mskbl 02, extbl 06, insbl 0B, mskwl 12, extwl 16, inswl 1B, mskll 22, extll 26, insll 2B, zap 30, "
          "zapnot 31, mskql 32, srl 34, extql 36, sll 39, insql 3B, sra 3C, mskwh 52, inswh 57, extwh 5A, msklh 62, "
          "inslh 67, extlh 6A, mskqh 72, insqh 77, extqh 7A",
    0x13: "mull 00, mulq 20, umulh 30, mull/v 40, mulq/v 60",
    0x1C: "sextb 00, sextw 01",
}

# registers by the names of the calling standard
NAMES = (["v0"] + ["t%d" % k for k in range(8)] + ["s%d" % k for k in range(6)] + ["fp"]
         + ["a%d" % k for k in range(6)] + ["t8", "t9", "t10", "t11", "ra", "t12", "at", "gp", "sp", "zero"])
assert len(NAMES) == 32

OTHER_NAMES = {"jcr": "jsr_coroutine", "or": "bis", "andnot": "bic", "xornot": "eqv"}


def operate(opcode, function, ra, rb, rc):
    """An operate word; rb is a register, or a literal behind #."""
    field = (int(rb[1:]) << 1 | 1) if rb[0] == "#" else int(rb[1:]) << 4
    return opcode << 26 | ra << 21 | field << 12 | function << 5 | rc


def rows():
    """Words with their texts. Registers and numbers change from row to row, r31 among them where it makes no alias."""
    out = []
    n = 0
    for name, opcode in MEMORY.items():
        n += 1
        ra, rb, disp = n % 31, (7 * n + 4) % 31, (-8 * n if n % 2 else 4001 * n % 32768)
        out.append((opcode << 26 | ra << 21 | rb << 16 | disp & 0xFFFF, "%s r%d,%d(r%d)" % (name, ra, disp, rb)))
    for disp in (-32768, 32767, 0):
        out.append((MEMORY["ldq"] << 26 | 27 << 21 | 29 << 16 | disp & 0xFFFF, "ldq r27,%d(r29)" % disp))
    for name, opcode in BRANCH.items():
        n += 1
        ra, disp = 1 + n % 30, (-n if n % 2 else 1000 * n)
        out.append((opcode << 26 | ra << 21 | disp & 0x1FFFFF, "%s r%d,%d" % (name, ra, disp)))
    for disp in (-1048576, 1048575):
        out.append((BRANCH["bne"] << 26 | 4 << 21 | disp & 0x1FFFFF, "bne r4,%d" % disp))
    for name, kind in JUMP.items():
        n += 1
        ra, rb, hint = n % 31, (n + 5) % 31, 16 * n + 1
        out.append((0x1A << 26 | ra << 21 | rb << 16 | kind << 14 | hint, "%s r%d,(r%d)" % (name, ra, rb)))
    for opcode, row in OPERATE.items():
        for item in row.split(", "):
            name, function = item.split(" ")
            n += 1
            ra, rc = n % 31, (3 * n + 1) % 31
            rb = "r%d" % ((5 * n + 2) % 31) if n % 2 else "#%d" % ((97 * n) % 256)
            if name in ("sextb", "sextw"):
                rb = "r%d" % (n % 31)
                out.append((operate(opcode, int(function, 16), 31, rb, rc), "%s %s,r%d" % (name, rb, rc)))
                continue
            out.append((operate(opcode, int(function, 16), ra, rb, rc), "%s r%d,%s,r%d" % (name, ra, rb, rc)))
    out.append((operate(0x10, 0x20, 1, "#255", 3), "addq r1,#255,r3"))
    for name, code in BARRIER.items():
        out.append((0x18 << 26 | code, name))
    out += [(0x00000000, "halt"), (0x00000083, "callsys"), (0x5FFF041F, "fnop")]
    return out


def disassembled(words):
    """What objdump gives for each word, at the address of four times its number."""
    with tempfile.TemporaryDirectory() as folder:
        path = os.path.join(folder, "words.bin")
        with open(path, "wb") as f:
            f.write(struct.pack("<%dI" % len(words), *words))
        text = subprocess.run([OBJDUMP, "-D", "-z", "-b", "binary", "-m", "alpha", path], check=True,
                              capture_output=True, text=True).stdout
    found = {}
    for line in text.splitlines():
        m = re.match(r"\s*([0-9a-f]+):\t(?:[0-9a-f]{2} ){4}\t(.*)", line)
        if m:
            found[int(m[1], 16)] = m[2].rstrip()
    return [found[4 * k] for k in range(len(words))]


def spelled(k, text):
    """objdump's text of the k-th word in this project's spelling."""
    name, _, operands = text.partition("\t")
    name = OTHER_NAMES.get(name, name)
    if not operands:
        return name
    operands = re.sub(r"\b(%s)\b" % "|".join(NAMES), lambda m: "r%d" % NAMES.index(m[1]), operands)
    if name in JUMP:
        operands = re.match(r"(r\d+,\(r\d+\))", operands)[1]
    elif name in BRANCH:
        m = re.match(r"(r\d+),(?:0x)?([0-9a-f]+)", operands)
        distance = int(m[2], 16) - 4 * k - 4
        if distance >= 1 << 63:
            distance -= 1 << 64
        operands = "%s,%d" % (m[1], distance // 4)
    elif name not in MEMORY:
        operands = re.sub(r",0x([0-9a-f]+),", lambda m: ",#%d," % int(m[1], 16), operands)
        operands = re.sub(r"^0x([0-9a-f]+),", lambda m: "#%d," % int(m[1], 16), operands)
    return name + " " + operands


# The image of two objects, linked with all words kept and a table each: the first calls the second.
OLD = [0x27BB0001, 0x23BD8030, 0xA77D8000, 0x6B5B4000, 0x27BA0001, 0x23BD8020, 0x47E00410, 0x201F0001, 0x00000083,
       0x27BB0001, 0x23BD8000, 0x201F0009, 0x6BFA8001]
NEW = [0x27BB2001, 0x23BD8000, 0xA77D8000, 0x6B5B4000, 0x27BA2000, 0x23BD7FF0, 0x47E00410, 0x201F0001, 0x00000083,
       0x27BB2000, 0x23BD7FEC, 0x201F0009, 0x6BFA8001]
# Its listing, by hand.
LISTING = ["0 00000000 27bb0001 27bb2001 ldah r29,8193(r27)", "0 00000004 23bd8030 23bd8000 lda r29,-32768(r29)",
           "0 00000010 27ba0001 27ba2000 ldah r29,8192(r26)", "0 00000014 23bd8020 23bd7ff0 lda r29,32752(r29)",
           "1 00000000 27bb0001 27bb2000 ldah r29,8192(r27)", "1 00000004 23bd8000 23bd7fec lda r29,32748(r29)",
           "words 13 kept 13 slots 1 tables 2"]


def image(text, data, the_map):
    """The bytes of an image's file."""
    out = bytearray(struct.pack("<HHIQIHH", 0x0183, 4, 0, 0, 0, 80, 0) + bytes(80))
    out[56:64] = struct.pack("<Q", 0x120000000)
    out[96:104] = struct.pack("<Q", 0x140008000)
    at = 368
    body = bytearray()
    for name, address, piece in ((b".text", 0x120000000, text), (b".data", 0x140000000, data),
                                 (b".bss", 0x140000000 + len(data), b""), (b".ommap", 0, the_map)):
        while (at + len(body)) % 16:
            body.append(0)
        out += struct.pack("<8sQQQQQQHHI", name, 0, address, len(piece), at + len(body) if piece else 0, 0, 0, 0, 0, 0)
        body += piece
    return bytes(out) + bytes(at - len(out)) + bytes(body)


def two_objects():
    """The image of two objects."""
    words = b"".join(struct.pack("<II", old, 1 << 31 | k) for k, old in enumerate(OLD))
    the_map = (b"OMMAP1\0\0" + struct.pack("<4I", 2, 2, 0, 13) + struct.pack("<4I", 9, 0, 4, 1)
               + struct.pack("<QIIQII", 0x140000000, 1, 0, 0x140000010, 0, 0)
               + struct.pack("<IIIIQ", 3, 1, 0, 0, 0) + words)
    return image(struct.pack("<13I", *NEW), struct.pack("<QQ", 0x120000024, 0), the_map)


def one_gone():
    """The image of one word, of an object whose one word is gone, and the place of that word in the file."""
    the_map = (b"OMMAP1\0\0" + struct.pack("<4I", 1, 1, 0, 1) + struct.pack("<2I", 1, 0)
               + struct.pack("<QII", 0x140000000, 0, 0) + struct.pack("<II", 0, 0))
    file = image(struct.pack("<I", 0), b"", the_map)
    return file, len(file) - 8


def pieces(file):
    """The bytes of a file as pieces, each behind its place."""
    return " ".join("%d:%s" % (m.start(), m[0].hex()) for m in re.finditer(b"(?s)(?:[^\0]+(?:\0{1,3}(?=[^\0]))?)+", file)) + " %d:" % len(file)


def lines(table):
    """All rows."""
    file, at = one_gone()
    yield "file two_objects %s => 648" % pieces(two_objects())
    yield "list two_objects => " + " ".join(line + ";" for line in LISTING)
    yield "file one_gone %s => %d" % (pieces(file), at + 8)
    for word, text in table:
        yield ("list one_gone %d:%s => 0 00000000 %08x gone %s; words 1 kept 0 slots 0 tables 1;"
               % (at, struct.pack("<I", word).hex(), word, text))


def main():
    table = rows()
    given = disassembled([word for word, _ in table])
    for k, ((word, text), theirs) in enumerate(zip(table, given)):
        if spelled(k, theirs) != text:
            raise SystemExit("%08x: %r here, %r by objdump, which is %r" % (word, text, theirs, spelled(k, theirs)))
    if "--check" not in sys.argv:
        print("\n".join(lines(table)))
        return
    with open(os.path.join(os.path.dirname(os.path.abspath(__file__)), "..", "stdin"), encoding="ascii") as f:
        there = set(f.read().splitlines())
    missing = [line for line in lines(table) if line not in there]
    if missing:
        raise SystemExit("\n".join(["not in stdin:", *missing]))
    print("all %d rows of listings stand in stdin" % len(list(lines(table))))


main()
