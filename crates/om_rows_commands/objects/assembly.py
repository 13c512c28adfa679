"""The assembler of the objects that the rows of the command name.

Words are encoded by the formats of the Alpha Architecture Handbook, and files by the headers of the ECOFF object format; nothing
here is taken from the program. The text stands at address 0, each further section at the next multiple of 16 in the order of their
numbers; `lit rN,X` loads from a slot of `.lita`, where slots stand in the order of first use, by r29, and `lit rN,X,rB` by another
register. `pair rN` sets the global pointer from the object's first word (r27) or from its own place (r26), `pair rN,NAME` from a
label; `high rN` and `low` are its two words apart. The global pointer is `.lita` plus 32768, or 32768 where there is none.
"""
import re
import struct

NAMES = {1: ".text", 2: ".rdata", 3: ".data", 4: ".sdata", 5: ".sbss", 6: ".bss", 13: ".lita"}
MEMORY = {"lda": 0x08, "ldah": 0x09, "ldbu": 0x0A, "ldq_u": 0x0B, "stb": 0x0E, "stq_u": 0x0F, "ldl": 0x28, "ldq": 0x29, "stl": 0x2C, "stq": 0x2D}
BRANCH = {"br": 0x30, "bsr": 0x34, "beq": 0x39, "bne": 0x3D}
JUMP = {"jmp": 0, "jsr": 1, "ret": 2}
OPERATE = {
    "addq": (0x10, 0x20), "s4addq": (0x10, 0x22), "subq": (0x10, 0x29), "cmpult": (0x10, 0x1D), "addq/v": (0x10, 0x60),
    "and": (0x11, 0x00), "bis": (0x11, 0x20), "mskbl": (0x12, 0x02), "extbl": (0x12, 0x06), "insbl": (0x12, 0x0B),
    "srl": (0x12, 0x34), "mulq": (0x13, 0x20),
}
TEXT_AT, DATA_AT = 0x120000000, 0x140000000
IGNORE, REFQUAD, GPREL32, LITERAL, GPDISP, BRADDR = 0, 2, 3, 4, 6, 7
TEXT, DATA, ABS, UNDEFINED, COMMON = 1, 2, 5, 6, 17


def reg(text):
    assert re.fullmatch(r"r\d+", text), text
    return int(text[1:])


def word(line, place, labels):
    """The word of one instruction."""
    name, _, rest = line.partition(" ")
    if name in ("callsys", "halt"):
        return {"callsys": 0x83, "halt": 0}[name]
    args = [it.strip() for it in rest.split(",")]
    if name in MEMORY:
        disp, base = re.fullmatch(r"(-?\d+)\((r\d+)\)", args[1]).groups()
        return MEMORY[name] << 26 | reg(args[0]) << 21 | reg(base) << 16 | int(disp) & 0xFFFF
    if name in BRANCH:
        disp = (labels[args[1]] - place - 4) // 4 if args[1] in labels else int(args[1])
        return BRANCH[name] << 26 | reg(args[0]) << 21 | disp & 0x1FFFFF
    if name in JUMP:
        hint = 1 if name == "ret" else 0
        return 0x1A << 26 | reg(args[0]) << 21 | reg(args[1].strip("()")) << 16 | JUMP[name] << 14 | hint
    opcode, function = OPERATE[name]
    second = 1 << 12 | int(args[1][1:]) << 13 if args[1].startswith("#") else reg(args[1]) << 16
    return opcode << 26 | reg(args[0]) << 21 | second | function << 5 | reg(args[2])


class Object:
    def __init__(self, source, sections=(), symbols=(), relocs=(), start=True):
        """sections: (number, size, bytes); symbols: (name, value, class), each where it is first named by the source behind them;
        relocs: (section number, offset, type, symbol name or section number, addend or target offset)."""
        self.lines = [it.strip() for it in source.strip().splitlines() if it.strip()]
        self.given = {number: (size, content) for number, size, content in sections}
        self.symbols = ([("__start", 0, TEXT)] if start else []) + [*symbols]
        self.more = relocs
        self.words, self.literals, self.pairs, self.branches, self.slots, self.at = [], [], [], [], [], {}
        self.read()

    def read(self):
        labels, place = {}, 0
        for line in self.lines:
            for label in re.findall(r"(\w+):", line):
                labels[label] = place
            rest = re.sub(r"\w+:\s*", "", line)
            if rest:
                place += 8 if rest.startswith("pair") else 4
        self.labels = labels
        for line in self.lines:
            rest = re.sub(r"\w+:\s*", "", line)
            if rest:
                self.add(rest, labels)

    def add(self, line, labels):
        place = 4 * len(self.words)
        if line.startswith("lit "):
            target, name, *by = [it.strip() for it in line[4:].split(",")]
            if name not in self.at:
                self.at[name] = len(self.slots)
                self.slots.append(name)
            self.literals.append((place, reg(target), self.at[name], reg(by[0]) if by else 29))
            self.words.append(0)
        elif line.startswith("pair "):
            self.add("high" + line[4:], labels)
            self.add("low", labels)
        elif line.startswith("high "):
            base, *at = [it.strip() for it in line[5:].split(",")]
            origin = labels[at[0]] if at else 0 if base == "r27" else place
            self.pairs.append((place, reg(base), origin))
            self.words.append(0)
        elif line == "low":
            self.pairs[-1] += (place - self.pairs[-1][0],)
            self.words.append(0)
        elif re.match(r"bsr r\d+,[a-z]\w*$", line) and line.split(",")[1] not in labels:
            self.branches.append((place, line.split(",")[1]))
            self.words.append(BRANCH["bsr"] << 26 | reg(line.split()[1].split(",")[0]) << 21)
        else:
            self.words.append(word(line, place, labels))

    def symbol(self, name):
        for index, it in enumerate(self.symbols):
            if it[0] == name:
                return index
        self.symbols.append((name, 0, UNDEFINED))
        return len(self.symbols) - 1

    def slot(self, name):
        """The bytes of a slot, and its relocation: index and whether it is external, if it has one."""
        if re.fullmatch(r"-?\d+", name):
            return int(name), None
        base, _, addend = name.partition("+")
        addend = int(addend or 0)
        if base.startswith("."):
            number = next(k for k, it in NAMES.items() if it == base)
            return self.addr[number] + addend, (number, False)
        if base in self.labels and base not in [it[0] for it in self.symbols]:
            return self.labels[base] + addend, (1, False)
        return addend, (self.symbol(base), True)

    def bytes(self):
        for name in self.slots:
            base = name.partition("+")[0]
            if not re.fullmatch(r"-?\d+", name) and not base.startswith(".") and base not in self.labels:
                self.symbol(base)
        for _, name in self.branches:
            self.symbol(name)
        sizes = {1: 4 * len(self.words), **{number: it[0] for number, it in self.given.items()}}
        if self.slots:
            sizes[13] = 8 * len(self.slots)
        self.addr, at = {}, 0
        for number in sorted(sizes):
            self.addr[number] = at
            at = (at + sizes[number] + 15) // 16 * 16
        gp = self.addr.get(13, 0) + 32768
        relocs = {number: [] for number in sizes}
        for place, target, slot, by in self.literals:
            disp = self.addr[13] + 8 * slot - gp
            self.words[place // 4] = MEMORY["ldq"] << 26 | target << 21 | by << 16 | disp & 0xFFFF
            relocs[1].append((place, 13, LITERAL, False))
        for place, base, origin, apart in self.pairs:
            total = gp - origin
            low = (total + 32768) % 65536 - 32768
            self.words[place // 4] = MEMORY["ldah"] << 26 | 29 << 21 | base << 16 | (total - low) // 65536 & 0xFFFF
            self.words[(place + apart) // 4] = MEMORY["lda"] << 26 | 29 << 21 | 29 << 16 | low & 0xFFFF
            relocs[1].append((place, apart, GPDISP, False))
        for place, name in self.branches:
            relocs[1].append((place, self.symbol(name), BRADDR, True))
        content = {number: bytearray(it[1].ljust(it[0], b"\0")) if number not in (5, 6) else b"" for number, it in self.given.items()}
        content[1] = bytearray(b"".join(struct.pack("<I", it) for it in self.words))
        if self.slots:
            content[13] = bytearray()
            for k, name in enumerate(self.slots):
                value, index = self.slot(name)
                content[13] += struct.pack("<Q", value % 2**64)
                if index:
                    relocs[13].append((self.addr[13] + 8 * k, index[0], REFQUAD, index[1]))
        for number, off, kind, index, value in self.more:
            external = isinstance(index, str)
            held = value if external else self.addr[index] + value
            if kind == GPREL32:
                struct.pack_into("<i", content[number], off, held if external else held - gp)
            else:
                struct.pack_into("<Q", content[number], off, held)
            relocs[number].append((self.addr[number] + off, self.symbol(index) if external else index, kind, external))
        return written(sizes, self.addr, content, relocs, self.symbols, gp)


def padded(out, to):
    out += bytes(-len(out) % to)


def written(sizes, addr, content, relocs, symbols, gp):
    """The file: headers, then each section's bytes, then the tables of relocations, then symbols and strings."""
    numbers = sorted(sizes)
    out = bytearray(104 + 64 * len(numbers))
    places, tables = {}, {}
    for number in numbers:
        if content[number]:
            padded(out, 16)
            places[number] = len(out)
            out += content[number]
    for number in numbers:
        if relocs[number]:
            padded(out, 8)
            tables[number] = len(out)
            for place, index, kind, external in sorted(relocs[number]):
                out += struct.pack("<QiBBH", place, index, kind, external, 0)
    padded(out, 8)
    header = len(out)
    strings = b"".join(name.encode() + b"\0" for name, _, _ in symbols)
    out += bytes(144)
    struct.pack_into("<H", out, header, 0x1992)
    struct.pack_into("<I", out, header + 32, len(strings))
    struct.pack_into("<I", out, header + 44, len(symbols))
    struct.pack_into("<Q", out, header + 112, header + 144 + 24 * len(symbols))
    struct.pack_into("<Q", out, header + 136, header + 144)
    at = 0
    for name, value, kind in symbols:
        out += struct.pack("<QIIII", value, at, kind << 6, 0, 0)
        at += len(name) + 1
    out += strings
    struct.pack_into("<HHIQIHH", out, 0, 0x0183, len(numbers), 0, header, 144, 80, 0)
    struct.pack_into("<Q", out, 96, gp)
    for k, number in enumerate(numbers):
        struct.pack_into(
            "<8sQQQQQQHHI", out, 104 + 64 * k, NAMES[number].encode(), 0, addr[number], sizes[number],
            places.get(number, 0), tables.get(number, 0), 0, len(relocs[number]), 0, 0,
        )
    return bytes(out)


def ends(what):
    first = f"bis r31,{what},r16" if str(what).startswith("r") else f"lda r16,{what}(r31)"
    return f"{first}\nlda r0,1(r31)\ncallsys\n"
