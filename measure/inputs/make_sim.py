#!/usr/bin/env python3
"""Writes two object files, to see how fast a program runs without addresses and how much memory it takes: make_sim.py FOLDER

loop.o  a loop over eight bytes of `.data`: load, add, store, subtract and branch, taken 2^64 times
data.o  33,554,432 bytes of `.data`, the most that a program can have, and a text that exits
"""
import os
import sys

sys.dont_write_bytecode = True
sys.path.insert(0, os.path.join(os.path.dirname(os.path.abspath(__file__)), "../../crates/om_rows_commands/objects"))
from generate import Object  # noqa: E402

LOOP = """
    pair r27
    lit r1,.data
    bis r31,r31,r2
    loop: ldq r3,0(r1)
    addq r3,#1,r3
    stq r3,0(r1)
    subq r2,#1,r2
    bne r2,loop
"""
EXIT = """
    lda r16,0(r31)
    lda r0,1(r31)
    callsys
"""

if __name__ == "__main__":
    for name, source, size in ("loop.o", LOOP, 8), ("data.o", EXIT, 33554432):
        with open(f"{sys.argv[1]}/{name}", "wb") as out:
            out.write(Object(source, [(3, size, bytes(size))]).bytes())
