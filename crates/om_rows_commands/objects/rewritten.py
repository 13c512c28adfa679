"""The objects of which a link at the default level makes something else, each with what is seen by it."""
import struct

from assembly import ABS, REFQUAD, TEXT, Object, ends

FAR = 2**40
FARTHER = 2**41


def bytes_with(size, at, *quads):
    """Bytes that are zero but for these quadwords."""
    return bytes(at) + struct.pack(f"<{len(quads)}Q", *quads) + bytes(size - at - 8 * len(quads))


def procedure(source, **rest):
    """An object whose text begins with the procedure `f`."""
    return Object(source, symbols=[("f", 0, TEXT)], start=False, **rest)


def loads(count, first):
    """As many loads of numbers that are far from each other's slots and from 0."""
    return "".join(f"lit r1,{first + k}\n" for k in range(count))


EXIT = "lda r0,1(r31)\ncallsys\n"
DATA_8 = [(3, 8, b"")]
DATA_16 = [(3, 16, b"")]
HOLDS_42 = [(3, 16, bytes_with(16, 8, 42))]


def calls_over_a_full_table(loaded, number):
    """A call whose procedure gives a number of which this one is taken."""
    return Object("pair r27\n" + loaded + f"lit r27,f\njsr r26,(r27)\npair r26\nlit r16,{number}\nsubq r0,r16,r16\n" + EXIT)


# Addresses by arithmetic: of one region near the global pointer, of one far away, and of numbers.
ADDRESSES = {
    # The last offset that a word holds, and the next one.
    "ENDS_OF_REACH": Object(
        "lit r1,.data+65519\nlit r2,.data+65520\nstq r1,0(r30)\nstq r2,8(r30)\nsubq r2,r1,r16\n" + EXIT, [(3, 65536, b"")]
    ),
    # A low part of 0x8000 carries into the high one; one of 0x7ff8 does not.
    "FAR_WITH_CARRY": Object(
        "lit r1,.data+131072\nldq r2,0(r1)\nldl r3,4(r1)\n" + ends("r3"), [(3, 131088, bytes_with(131088, 131072, 5 * 2**32 + 1))]
    ),
    "FAR_WITHOUT_CARRY": Object(
        "lda r1,5(r31)\nlit r2,.bss+131064\nstq r1,0(r2)\nldq r3,0(r2)\n" + ends("r3"), [(6, 131072, b"")]
    ),
    # Uses on both sides of a multiple of 16, which a smaller table may part.
    "FAR_APART": Object("lit r1,.bss+131072\nldq r2,0(r1)\nldq r3,16(r1)\n" + ends(0), [(6, 131104, b"")]),
    # The same where LDAH of the one would no longer be that of the other, if the slot were gone.
    "FAR_PARTED": Object("lit r1,.bss+131056\nldq r2,0(r1)\nldq r3,16(r1)\n" + ends(0), [(6, 131104, b"")]),
    # A low part that is -32768 while the slot is there, and 32752 when it is gone; and a target that is far by its own slot
    # alone, of which LDAH is left.
    "FAR_BY_LEAST": Object(
        "lda r1,5(r31)\nlit r2,.bss+131056\nstq r1,0(r2)\nldq r3,0(r2)\n" + ends("r3"), [(6, 131072, b"")]
    ),
    "FAR_BY_ITS_SLOT": Object("lit r1,.data+65520\nldq r2,0(r1)\n" + ends("r2"), [(3, 65536, bytes_with(65536, 65520, 42))]),
    # LDAH and its uses can do without the register by which it is loaded: written before the use, or the result itself.
    "FAR_BASE_WRITTEN": Object(
        "lit r1,.data+131072\nbis r31,r31,r29\nldq r2,8(r1)\n" + ends("r2"), [(3, 131088, bytes_with(131088, 131080, 42))]
    ),
    "FAR_BASE_IS_RESULT": Object(
        "lit r29,.data+131072\nldq r2,8(r29)\n" + ends("r2"), [(3, 131088, bytes_with(131088, 131080, 42))]
    ),
    # A far address that is stored, and one that the last word of its block reads.
    "FAR_STORES_ITSELF": Object("lit r1,.bss+131072\nstq r1,0(r1)\n" + ends(0), [(6, 131088, b"")]),
    "FAR_TESTED": Object("lit r1,.bss+131072\nldq r2,0(r1)\nbeq r1,0\n" + ends(0), [(6, 131088, b"")]),
    # Sums of addresses are no base uses, near and far.
    "ADDS_TO_ADDRESSES": Object(
        "lit r1,.data\nlda r2,8(r1)\nlit r4,.bss+131072\nlda r5,8(r4)\nldq r3,0(r2)\nldq r6,0(r5)\n" + ends("r3"),
        HOLDS_42 + [(6, 131088, b"")],
    ),
    # The register is read in the next block; or it is written again, and then read there.
    "FAR_READ_LATER": Object(
        "lda r1,5(r31)\nlit r9,.bss+131072\nstq r1,8(r9)\nbeq r31,0\nldq r3,8(r9)\n" + ends("r3"), [(6, 131104, b"")]
    ),
    "FAR_WRITTEN_LATER": Object(
        "lda r1,5(r31)\nlit r9,.bss+131072\nstq r1,0(r9)\nlda r9,3(r31)\nbeq r31,0\n" + ends("r9"), [(6, 131104, b"")]
    ),
    "READ_IN_NEXT_BLOCK": Object("lit r9,.data\nbeq r31,0\nldq r16,8(r9)\n" + EXIT, HOLDS_42),
    "READ_AT_ONCE": Object("lit r1,.data\nldq r16,8(r1)\n" + EXIT, HOLDS_42),
    # In reach only when the table has lost slots: a target, and a use of one that was in reach.
    "NEAR_LATER": Object(
        "lit r1,.bss\nlit r2,.bss+8\nlit r3,.bss+65512\nstq r1,0(r30)\nstq r2,8(r30)\nstq r3,16(r30)\nsubq r3,r1,r16\n" + EXIT,
        [(6, 65536, b"")],
    ),
    # Each round brings two more targets in reach.
    "NEAR_EACH_ROUND": Object(
        "lit r1,.bss\nlit r2,.bss+8\nlit r3,.bss+65496\nlit r4,.bss+65500\nlit r5,.bss+65512\nlit r6,.bss+65516\n"
        + "stq r1,0(r30)\nstq r2,8(r30)\nstq r3,16(r30)\nstq r4,24(r30)\nstq r5,32(r30)\nstq r6,40(r30)\nsubq r6,r1,r16\n"
        + EXIT,
        [(6, 65536, b"")],
    ),
    "USED_NEAR_LATER": Object(
        "lit r1,.bss\nlit r2,.bss+8\nlit r3,.bss+65488\nstq r1,0(r30)\nstq r2,8(r30)\nlda r5,6(r31)\nstq r5,16(r3)\nldq r4,16(r3)\n"
        + ends("r4"),
        [(6, 65536, b"")],
    ),
    # Just past reach until loads that nothing reads are deleted, which is first of all.
    "NEAR_BY_DELETION": Object(
        5 * "lit r2,.data\nlit r3,.data+8\n" + "lit r4,.data+16\nlit r1,.data+65504\nldq r16,0(r1)\nbis r31,r31,r31\n" + EXIT,
        [(3, 65536, bytes_with(65536, 65504, 42))],
    ),
    # Just past reach until the call is direct: then what reads the address beside the use is not read, and goes.
    "NEAR_BY_A_CALL": Object(
        "f: lit r1,.data+65504\nldq r16,0(r1)\n"
        + EXIT
        + "lit r5,.data,r1\nlit r28,g\nlit r27,f\njsr r31,(r27)\ng: lda r6,0(r5)\njmp r31,(r28)\n",
        [(3, 65536, bytes_with(65536, 65504, 42))],
    ),
    # Regions stand by their sizes.
    "REGIONS_BY_SIZE": Object(
        "lit r1,.data\nlit r2,.sdata\nstq r1,0(r30)\nstq r2,8(r30)\n" + ends(0), [(3, 16, b""), (4, 8, b"")]
    ),
    # The end of a region, and past it on both sides: as targets, and as what is used.
    "NEAR_BY_OFFSET": Object(
        "lit r1,.data+16\nlit r2,.data+17\nlit r3,.data+-1\nstq r1,0(r30)\nstq r2,8(r30)\nstq r3,16(r30)\n" + ends(0), DATA_16
    ),
    "USED_PAST_REGION": Object(
        "beq r31,end\nlit r1,.data\nldq r2,16(r1)\nldq r3,24(r1)\nldq r4,-8(r1)\nend: " + ends(0), DATA_16
    ),
    # 32768 bytes before the global pointer while the slot is there, and before the region.
    "USED_BEFORE_REGION": Object("beq r31,end\nlit r1,.data\nldq r2,-16(r1)\nend: " + ends(0), DATA_16),
    # A load into no register reads no base.
    "READS_INTO_NOTHING": Object("lit r1,.data\nldq r31,0(r1)\n" + ends(7), DATA_8),
    # The address is stored, and not only what it is stored by.
    "STORES_ITSELF": Object("lit r1,.data\nstq r1,0(r1)\nldq r2,0(r1)\nldq r3,8(r2)\n" + ends("r3"), HOLDS_42),
    # Bytes taken out by the low bits of an address, and out of an address itself.
    "TAKES_A_BYTE": Object(
        "lit r1,.data+11\nldq_u r2,0(r1)\nextbl r2,r1,r3\n" + ends("r3"), [(3, 16, bytes_with(16, 8, 77 << 24))]
    ),
    "TAKES_A_BYTE_FAR": Object("lit r1,.bss+131073\nlda r2,16961(r31)\nextbl r2,r1,r3\n" + ends("r3"), [(6, 131088, b"")]),
    "STORES_A_BYTE_FAR": Object(
        "lda r4,77(r31)\nlit r1,.bss+131075\nstb r4,0(r1)\nldq_u r2,0(r1)\nextbl r2,r1,r3\n" + ends("r3"), [(6, 131088, b"")]
    ),
    # Bytes that are put and cleared, and numbers of bytes from addresses behind and before the region.
    "TAKES_BYTES": Object(
        "lit r1,.data+3\nlda r2,77(r31)\ninsbl r2,r1,r3\nmskbl r3,r1,r5\nextbl r3,r1,r4\naddq r4,r5,r16\n" + EXIT, DATA_16
    ),
    "TAKES_BYTES_OUTSIDE": Object(
        "lit r1,.data+17\nlit r4,.data+-7\nlda r2,16961(r31)\nextbl r2,r1,r3\nextbl r2,r4,r5\naddq r3,r5,r16\n" + EXIT, DATA_16
    ),
    "TAKES_OF_ITSELF": Object("beq r31,end\nlit r1,.data+3\nextbl r1,r1,r2\nend: " + ends(0), DATA_8),
    # The register by which it is loaded: written before the use, the result itself, or another than r29.
    "BASE_WRITTEN": Object("lit r1,.data\nbis r31,r31,r29\nldq r2,8(r1)\n" + ends("r2"), HOLDS_42),
    # Written by a setting that is dropped, so that it is the same at the use.
    "BASE_SET_AGAIN": Object("lit r1,.data\npair r27\nldq r2,8(r1)\n" + ends("r2"), HOLDS_42),
    "BASE_IS_RESULT": Object("lit r29,.data\nldq r2,8(r29)\n" + ends("r2"), HOLDS_42),
    "BY_ANOTHER_BASE": Object("bis r31,r29,r2\nlit r1,.data,r2\nldq r3,8(r1)\n" + ends("r3"), HOLDS_42),
    # Numbers: the ends of what a word holds, and two of one symbol.
    "NUMBERS": Object(
        "lit r1,-32768\nlit r2,32767\nlit r3,32768\nlit r4,-32769\naddq r1,r2,r1\naddq r3,r4,r3\naddq r1,r3,r16\n" + EXIT
    ),
    "NUMBERS_APART": Object("lit r1,x\nlit r2,x+8\nsubq r2,r1,r16\n" + EXIT, symbols=[("x", FAR, ABS)]),
}

# Calls through the table, and settings of the global pointer.
CALLS = {
    "CALLS_BY_TABLE": Object("lit r27,f\njsr r26,(r27)\n" + ends("r0")),
    # The last write of the register is no load; or it is one of the block before.
    "CALLS_ANOTHER": Object(
        "lit r1,f\nlit r27,g\nbis r31,r1,r27\njsr r26,(r27)\n"
        + ends("r0")
        + "f: lda r0,9(r31)\nret r31,(r26)\ng: lda r0,8(r31)\nret r31,(r26)\n"
    ),
    # The same where the load before that write is read as well, so that it is not deleted before calls are looked at.
    "CALLS_ANOTHER_STORED": Object(
        "lit r27,g\nstq r27,0(r30)\nlit r1,f\nbis r31,r1,r27\njsr r26,(r27)\n"
        + ends("r0")
        + "f: lda r0,9(r31)\nret r31,(r26)\ng: lda r0,8(r31)\nret r31,(r26)\n"
    ),
    "CALLS_FROM_NEXT_BLOCK": Object(
        "lit r27,f\nbeq r31,0\njsr r26,(r27)\n" + ends("r0") + "f: lda r0,9(r31)\nret r31,(r26)\n"
    ),
    # Calls that do not come back, by both words for them.
    "CALLS_FOR_GOOD": Object("lit r27,f\njsr r31,(r27)\n" + ends(8) + "f: " + ends(9)),
    "JUMPS_BY_TABLE": Object("lit r27,f\njmp r31,(r27)\n" + ends(8) + "f: " + ends(9)),
    # The link register is r29, so the procedure has to set it.
    "LINKS_BY_R29": Object("pair r27\nlit r27,f\njsr r29,(r27)\nhalt\n"),
    "EXITS_NINE": procedure(f"pair r27\nlit r16,{FAR + 9}\n" + EXIT),
    # A call past a setting that stays, which does not come back.
    "CALLS_TWICE": Object(
        "pair r27\nstq r29,0(r30)\nlit r27,f\nldq r29,0(r30)\njsr r26,(r27)\npair r26\nlit r27,f\njsr r31,(r27)\n"
    ),
    "EXITS_AT_SECOND": procedure(
        f"pair r27\nlit r16,{FAR + 9}\naddq r1,#1,r1\nand r1,#2,r2\nbne r2,1\nret r31,(r26)\n" + EXIT
    ),
    # The procedure called loses the global pointer.
    "SETS_AFTER_CALL": Object(f"lit r27,f\njsr r26,(r27)\npair r26\nlit r16,{FAR + 9}\n" + EXIT),
    "LOSES_GP": procedure("bis r31,r31,r29\nret r31,(r26)\n"),
    # A half that is read before the other one stands.
    "READS_HALF": Object(f"high r27\nstq r29,0(r30)\nlow\nlit r16,{FAR + 9}\n" + EXIT),
    # Halves with another word between, and halves in two blocks.
    "HALVES_APART": Object(f"high r27\nlda r5,3(r31)\nlow\nlit r16,{FAR + 9}\n" + EXIT),
    "HALVES_IN_TWO_BLOCKS": Object(f"high r27\nbeq r31,0\nlow\nlit r16,{FAR + 9}\n" + EXIT),
    # A procedure whose first word goes, and whose setting stays, by the place where it began.
    "LOSES_FIRST_WORD": procedure(f"lit r31,.data\nbis r31,r31,r29\npair r27\nlit r0,{FAR + 9}\nret r31,(r26)\n", sections=DATA_8),
    # A setting to which no run comes, behind a call that never returns: with a write of r29 before it, and without.
    "UNREACHED_WRITES": Object(
        f"bsr r26,f\nlda r29,0(r31)\npair r26\nlit r1,{FAR + 1}\nstq r1,0(r30)\n" + ends(8) + "f: " + ends(9)
    ),
    "UNREACHED_SETS": Object(f"bsr r26,f\npair r26\nlit r1,{FAR + 1}\nstq r1,0(r30)\n" + ends(8) + "f: " + ends(9)),
    # Procedures that data alone names: one of this object, and one of another, which begins with a setting.
    "NAMED_BY_DATA": Object(
        "lit r1,.data\nldq r27,0(r1)\njsr r26,(r27)\n"
        + ends("r0")
        + "lda r0,9(r31)\nret r31,(r26)\nlda r0,8(r31)\nret r31,(r26)\n",
        DATA_8,
        relocs=[(3, 0, REFQUAD, 1, 24)],
    ),
    "CALLS_BY_DATA": Object(
        "lit r1,.data\nldq r27,0(r1)\njsr r26,(r27)\npair r26\n" + ends("r0"), DATA_8, relocs=[(3, 0, REFQUAD, "f", 0)]
    ),
    # Two objects of which one table cannot hold the slots.
    "HAS_4502_SLOTS": calls_over_a_full_table(loads(4500, FAR), FARTHER),
    "HAS_4501_SLOTS": procedure("pair r27\n" + loads(4500, FAR + 5000) + f"lit r0,{FARTHER + 9}\nret r31,(r26)\n"),
    # 8,191 slots; with the one of `loads_nine.o` a table is full, and the two of this one are too many.
    "HAS_8191_SLOTS": calls_over_a_full_table(loads(8189, FARTHER), FAR),
    "HAS_2_SLOTS": procedure(f"pair r27\nlit r1,{2 * FARTHER}\nlit r0,{FAR + 9}\nret r31,(r26)\n"),
}

# What is deleted, and what is not.
DELETED = {
    "LOOPS_WITHOUT_READING": Object("lit r9,.data\nlda r1,1(r31)\nsubq r1,#1,r1\nbne r1,-2\n" + ends(0), DATA_8),
    # A load that nothing but itself reads, by the way back of a loop.
    "LOOPS_ON_ITSELF": Object("bis r31,r29,r1\nloop: lit r1,.data,r1\nbne r31,loop\n" + ends(7), DATA_8),
    # Words that are needed by nothing: one that names no address, a setting, and a load into no register.
    "NEEDS_NO_WORD": Object("lda r5,3(r31)\n" + ends(7)),
    "NEEDS_NO_SETTING": Object("bis r31,r31,r29\npair r27\n" + ends(7)),
    "LOADS_NOTHING": Object("lit r31,.data\n" + ends(7), DATA_8),
    "HALTS_BEHIND_LOAD": Object("lit r1,.data\nhalt\n", DATA_8),
    # The last word of a text stays: a load that can be done without the table, one that cannot, one into no register, a setting.
    "ENDS_BY_LOAD": Object(ends(7) + "lit r1,.data\n", DATA_8),
    "ENDS_BY_NUMBER": Object(ends(7) + f"lit r1,{FAR}\n"),
    "ENDS_BY_NOTHING": Object(ends(7) + "lit r31,.data\n", DATA_8),
    "ENDS_BY_SETTING": Object(ends(7) + "pair r27\n"),
    # Such words that are done without the table: of numbers, and by registers that other words set for them.
    "ENDS_BY_NEAR_NUMBER": Object(ends(7) + "lit r1,5\n"),
    "ENDS_BY_IDLE_NUMBER": Object(ends(7) + "lit r31,5\n"),
    "ENDS_BY_ANOTHER_BASE": Object(ends(7) + "lit r1,.data\nlit r2,.data+8,r1\n", DATA_16),
    "ENDS_OVER_A_SETTING": Object("bis r31,r31,r29\npair r27\n" + ends(7) + "lit r1,.data\n", DATA_8),
}

OBJECTS = {**ADDRESSES, **CALLS, **DELETED}
