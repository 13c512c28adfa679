#!/usr/bin/env python3
"""Writes the vectors on standard output: python3 generate.py > ../stdin

Everything here is computed from the Alpha Architecture Handbook's tables as typed in below (chapter 4 for
the operations, appendix C for the numbers), with Python's own integers. It looks at no file of the crates.

Kinds of line, numbers in hexadecimal but those of bound:

  alu WORD A B RESULT OVERFLOWS       the operation of an operate word on two quadwords
  word WORD READS WRITES WHERE TEXT   a word: masks of registers; of a branch where it goes from 0x120001000,
                                      of a memory operation what it does, of others -; and its fields,
                                      in decimal, a literal operand behind #.
                                      A word of no instruction has `none` alone
  bound KIND NUMBER yes|no            whether a number makes a register, a hint, a displacement
  cond WORD A yes|no                  whether the test of a conditional move holds
"""
import random

M64 = (1 << 64) - 1
PLACE = 0x120001000

# the numbers
MEMORY = {"Lda": 0x08, "Ldah": 0x09, "Ldbu": 0x0A, "LdqU": 0x0B, "Ldwu": 0x0C, "Stw": 0x0D, "Stb": 0x0E,
          "StqU": 0x0F, "Ldl": 0x28, "Ldq": 0x29, "Stl": 0x2C, "Stq": 0x2D}
BRANCH = {"Br": 0x30, "Bsr": 0x34, "If(Lbc)": 0x38, "If(Eq)": 0x39, "If(Lt)": 0x3A, "If(Le)": 0x3B,
          "If(Lbs)": 0x3C, "If(Ne)": 0x3D, "If(Ge)": 0x3E, "If(Gt)": 0x3F}
OPERATE = {
    0x10: "ADDL 00, S4ADDL 02, SUBL 09, S4SUBL 0B, CMPBGE 0F, S8ADDL 12, S8SUBL 1B, CMPULT 1D, ADDQ 20, S4ADDQ 22, "
          "SUBQ 29, S4SUBQ 2B, CMPEQ 2D, S8ADDQ 32, S8SUBQ 3B, CMPULE 3D, ADDL/V 40, SUBL/V 49, CMPLT 4D, ADDQ/V 60, "
          "SUBQ/V 69, CMPLE 6D",
    0x11: "AND 00, BIC 08, BIS 20, ORNOT 28, XOR 40, EQV 48",
    0x12: "MSKBL 02, EXTBL 06, INSBL 0B, MSKWL 12, EXTWL 16, INSWL 1B, MSKLL 22, EXTLL 26, INSLL 2B, ZAP 30, "
          "ZAPNOT 31, MSKQL 32, SRL 34, EXTQL 36, SLL 39, INSQL 3B, SRA 3C, MSKWH 52, INSWH 57, EXTWH 5A, MSKLH 62, "
          "INSLH 67, EXTLH 6A, MSKQH 72, INSQH 77, EXTQH 7A",
    0x13: "MULL 00, MULQ 20, UMULH 30, MULL/V 40, MULQ/V 60",
    0x1C: "SEXTB 00, SEXTW 01",
}
MOVES = {0x14: "Lbs", 0x16: "Lbc", 0x24: "Eq", 0x26: "Ne", 0x44: "Lt", 0x46: "Ge", 0x64: "Le", 0x66: "Gt"}
MISC = {0x0000: "Trapb", 0x0400: "Excb", 0x4000: "Mb", 0x4400: "Wmb"}
JUMPS = ["Jmp", "Jsr", "Ret", "Jcr"]

TABLE = {}
for opcode, row in OPERATE.items():
    for item in row.split(", "):
        name, number = item.split(" ")
        TABLE[opcode, int(number, 16)] = name
assert len(TABLE) == 61

LETTER = {"B": "Byte", "W": "Word", "L": "Long", "Q": "Quad"}


def spelled(name):
    """The operation as the crates' values print."""
    if name[:3] in ("EXT", "INS", "MSK"):
        family = name[:3].capitalize()
        return "%s%s(%s)" % (family, {"L": "Low", "H": "High"}[name[4]], LETTER[name[3]])
    if name in ("CMPEQ", "CMPLT", "CMPLE", "CMPULT", "CMPULE"):
        return "Compare(%s)" % name[3:].capitalize()
    scale = {"S4": "Four", "S8": "Eight"}.get(name[:2], "One")
    core = name[2:] if name[:2] in ("S4", "S8") else name
    checked = core.endswith("/V")
    core = core[:-2] if checked else core
    if core[:3] in ("ADD", "SUB", "MUL") and core[3:] in ("L", "Q"):
        family, width = core[:3].capitalize(), LETTER[core[3]]
        if checked or family == "Mul":
            return "%s%s(%s)" % (family, "V" if checked else "", width)
        return "%s(%s, %s)" % (family, scale, width)
    return name.capitalize()


# the arithmetic
def signed(n, bits):
    n &= (1 << bits) - 1
    return n - (1 << bits) if n >> (bits - 1) else n


def extended(n, bits):
    return signed(n, bits) & M64


def bytes_of(n):
    return [n >> 8 * i & 0xFF for i in range(8)]


def number_of(bs):
    return sum(b << 8 * i for i, b in enumerate(bs))


def result(name, a, b):
    """The operation's result, and whether the /V operation overflows."""
    if name[:3] in ("EXT", "INS", "MSK"):
        k = b % 8
        count = {"B": 1, "W": 2, "L": 4, "Q": 8}[name[3]]
        high = name[4] == "H"
        source = bytes_of(a)
        if name[:3] == "EXT":
            if high:
                # the low `count` bytes of a moved up by 8 - k bytes, or not at all where k is 0
                up = (8 - k) % 8
                moved = ([0] * up + source)[:8]
                return number_of(moved[:count]), False
            return number_of((source[k:] + [0] * 8)[:count]), False
        if name[:3] == "INS":
            wide = ([0] * k + source[:count] + [0] * 16)[:16]
            return number_of(wide[8:] if high else wide[:8]), False
        holes = [k <= i < k + count for i in range(16)]
        holes = holes[8:] if high else holes[:8]
        return number_of([0 if h else s for h, s in zip(holes, source)]), False
    if name == "CMPBGE":
        return sum((x >= y) << i for i, (x, y) in enumerate(zip(bytes_of(a), bytes_of(b)))), False
    if name in ("ZAP", "ZAPNOT"):
        clear = 1 if name == "ZAP" else 0
        return number_of([0 if b >> i & 1 == clear else s for i, s in enumerate(bytes_of(a))]), False
    if name in ("SEXTB", "SEXTW"):
        return extended(b, 8 if name == "SEXTB" else 16), False
    x, y = signed(a, 64), signed(b, 64)
    simple = {
        "CMPEQ": lambda: int(a == b), "CMPLT": lambda: int(x < y), "CMPLE": lambda: int(x <= y),
        "CMPULT": lambda: int(a < b), "CMPULE": lambda: int(a <= b),
        "UMULH": lambda: a * b >> 64,
        "AND": lambda: a & b, "BIS": lambda: a | b, "XOR": lambda: a ^ b,
        "BIC": lambda: a & (M64 - b), "ORNOT": lambda: a | (M64 - b), "EQV": lambda: a ^ (M64 - b),
        "SLL": lambda: a << b % 64 & M64, "SRL": lambda: a >> b % 64, "SRA": lambda: (x >> b % 64) & M64,
    }
    if name in simple:
        return simple[name](), False
    factor = {"S4": 4, "S8": 8}.get(name[:2], 1)
    core = name[2:] if factor > 1 else name
    bits = 64 if core[3] == "Q" else 32
    do = {"ADD": lambda p, q: factor * p + q, "SUB": lambda p, q: factor * p - q, "MUL": lambda p, q: p * q}[core[:3]]
    value = do(a, b) & M64
    if bits == 32:
        value = extended(value, 32)
    if not name.endswith("/V"):
        return value, False
    exact = do(signed(a, bits), signed(b, bits))
    return value, not -(1 << bits - 1) <= exact < 1 << bits - 1


# the words
def register_mask(*registers):
    mask = 0
    for r in registers:
        if r != 31:
            mask |= 1 << r
    return mask


def row(word):
    """Fields, registers read and written, and where or what; None for a word of no instruction."""
    opcode, ra, rb, rc = word >> 26, word >> 21 & 31, word >> 16 & 31, word & 31
    for name, code in MEMORY.items():
        if code == opcode:
            text = "Mem %s %d %d %d" % (name, ra, rb, signed(word, 16))
            if name.startswith("St"):
                return text, register_mask(ra, rb), 0, "Store"
            if name in ("Lda", "Ldah"):
                return text, register_mask(rb), register_mask(ra), "Address"
            return text, 0 if ra == 31 else register_mask(rb), register_mask(ra), "Load"
    for name, code in BRANCH.items():
        if code == opcode:
            disp = signed(word, 21)
            text = "Branch %s %d %d" % (name, ra, disp)
            target = "%x" % ((PLACE + 4 + 4 * disp) & M64)
            if name in ("Br", "Bsr"):
                return text, 0, register_mask(ra), target
            return text, register_mask(ra), 0, target
    if opcode == 0x1A:
        text = "Jump %s %d %d %d" % (JUMPS[word >> 14 & 3], ra, rb, word & 0x3FFF)
        return text, register_mask(rb), register_mask(ra), None
    if opcode == 0x18 and word & 0xFFFF in MISC:
        return "Misc %s %d %d" % (MISC[word & 0xFFFF], ra, rb), 0, 0, None
    if word == 0x5FFF041F:
        return "Fnop", 0, 0, None
    if word == 0:
        return "Halt", 0, 0, None
    if word == 0x83:
        return "Callsys", register_mask(0, 16, 17, 18), register_mask(0, 19), None
    function = word >> 5 & 0x7F
    if word >> 12 & 1:
        operand, used = "#%d" % (word >> 13 & 0xFF), ()
    elif word >> 13 & 7:
        return None
    else:
        operand, used = "%d" % rb, (rb,)
    if opcode == 0x11 and function in MOVES:
        text = "Cmov %s %d %s %d" % (MOVES[function], ra, operand, rc)
        return text, register_mask(ra, rc, *used), register_mask(rc), None
    if (opcode, function) in TABLE:
        name = TABLE[opcode, function]
        text = "Alu %s %d %s %d" % (spelled(name), ra, operand, rc)
        first = () if name in ("SEXTB", "SEXTW") else (ra,)
        return text, register_mask(*first, *used), register_mask(rc), None
    return None


def word_line(word):
    fields = row(word)
    if fields is None:
        return "word %08x none" % word
    text, reads, writes, where = fields
    return "word %08x %x %x %s %s" % (word, reads, writes, where or "-", text)


def words():
    rng = random.Random(1992)
    # every pair of an operate opcode and a function, inside and outside the table, in both forms
    for opcode in OPERATE:
        for function in range(128):
            base = opcode << 26 | rng.randrange(32) << 21 | function << 5 | rng.randrange(32)
            inside = (opcode, function) in TABLE or (opcode == 0x11 and function in MOVES)
            forms = [base | rng.randrange(32) << 16, base | 1 << 12 | rng.randrange(256) << 13]
            for form in forms:
                yield form
            if inside:
                # bit 12 clear, and one of the bits 15 to 13 set
                yield forms[0] | rng.randrange(1, 8) << 13
    for bit in (13, 14, 15):
        yield 0x40220403 | 1 << bit
    # every other opcode
    for opcode in range(64):
        if opcode not in OPERATE:
            for ra, rb in ((1, 2), (31, 7), (9, 31)):
                yield opcode << 26 | ra << 21 | rb << 16 | rng.randrange(1 << 16)
    # signed fields at their ends
    for low in (0, 1, 0x7FFF, 0x8000, 0xFFFF):
        yield 0x29 << 26 | 1 << 21 | 30 << 16 | low
        yield 0x08 << 26 | 1 << 21 | 31 << 16 | low
    for low in (0, 1, 0xFFFFF, 0x100000, 0x1FFFFF):
        for opcode in (0x30, 0x34, 0x39):
            yield opcode << 26 | 26 << 21 | low
    # jumps and hints
    for kind in range(4):
        for hint in (0, 1, 0x3FFF):
            yield 0x1A << 26 | 26 << 21 | 27 << 16 | kind << 14 | hint
    # barriers, with registers, and their neighbours
    for code in sorted(MISC):
        yield 0x18 << 26 | code
        yield 0x18 << 26 | 31 << 21 | 3 << 16 | code
        yield 0x18 << 26 | code | 1
        yield 0x18 << 26 | code | 0x800
    # the words that stand alone, and their neighbours
    for word in (0x5FFF041F, 0x5FFF041E, 0x5FFF0420, 0x5FFE041F, 0, 1, 0x82, 0x83, 0x84, 0x10083, 0x200000, M64 >> 32):
        yield word


EDGES = [0, 1, 2, 0x7F, 0x80, 0xFF, 0x7FFF, 0x8000, 0xFFFF, 0x7FFFFFFF, 0x80000000, 0x80000001, 0xFFFFFFFF, 0x100000000,
         0x7FFFFFFFFFFFFFFF, 0x8000000000000000, 0x8000000000000001, 0xFFFFFFFF7FFFFFFF, 0xFFFFFFFF80000000,
         M64 - 1, M64, 0x0123456789ABCDEF, 0xFEDCBA9876543210, 0x5555555555555555, 0xAAAAAAAAAAAAAAAA,
         0x00FF00FF00FF00FF, 0x8080808080808080, 0xB504F334, 0xB504F333F9DE6485]


def alu_lines():
    rng = random.Random(64)
    for (opcode, function), name in TABLE.items():
        word = opcode << 26 | 1 << 21 | 2 << 16 | function << 5 | 3
        pairs = [(M64, 1), (1, M64), (M64, M64), (1 << 63, M64), (1 << 63, 1), ((1 << 63) - 1, 1), (0, 1 << 63),
                 ((1 << 31) - 1, 1), (1 << 31, M64), (1 << 31, 1 << 31), (0, 0), (0x80000000, 2), (1 << 62, 2),
                 (0xB504F334, 0xB504F334), (0xB504F333, 0xB504F333), (0xFFFF0000, 0x8000), ((1 << 63) - 1, 1 << 63)]
        source = 0x8182838485868788
        pairs += [(source, k) for k in range(9)] + [(M64, k) for k in range(8)]
        pairs += [(source, b) for b in (31, 32, 63, 64, 65, 0xF0, 0x55, 0x1FE, M64)]
        pairs += [(rng.choice(EDGES), rng.choice(EDGES)) for _ in range(16)]
        pairs += [(rng.getrandbits(64), rng.getrandbits(64)) for _ in range(10)]
        for a, b in dict.fromkeys(pairs):
            value, over = result(name, a, b)
            yield "alu %08x %x %x %x %s" % (word, a, b, value, "yes" if over else "no")


def bound_lines():
    for kind, rows in (("reg", ((0, 1), (31, 1), (32, 0), (255, 0))),
                       ("hint", ((0, 1), (16383, 1), (16384, 0), (65535, 0))),
                       ("disp", ((-1048577, 0), (-1048576, 1), (0, 1), (1048575, 1), (1048576, 0), (-2147483648, 0)))):
        for number, good in rows:
            yield "bound %s %d %s" % (kind, number, "yes" if good else "no")


def cond_lines():
    tests = {"Lbc": lambda a: a % 2 == 0, "Lbs": lambda a: a % 2 == 1, "Eq": lambda a: a == 0, "Ne": lambda a: a != 0,
             "Lt": lambda a: a >> 63 == 1, "Ge": lambda a: a >> 63 == 0, "Le": lambda a: a == 0 or a >> 63 == 1,
             "Gt": lambda a: a != 0 and a >> 63 == 0}
    functions = {cond: function for function, cond in MOVES.items()}
    for cond, holds in tests.items():
        word = 0x11 << 26 | 1 << 21 | 2 << 16 | functions[cond] << 5 | 3
        for a in EDGES:
            yield "cond %08x %x %s" % (word, a, "yes" if holds(a) else "no")


def main():
    for lines in (bound_lines(), cond_lines(), map(word_line, words()), alu_lines()):
        for line in lines:
            print(line)


if __name__ == "__main__":
    main()
