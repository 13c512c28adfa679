"""Writes an image that counts down in a loop of a load, an addition, a subtraction and a branch: make_loop.py FILE

The loop is taken 67,108,864 times, so the run has 268,435,460 steps, with the one before the loop and the three of its exit.
"""
import os
import sys

sys.dont_write_bytecode = True
sys.path.insert(0, os.path.join(os.path.dirname(os.path.abspath(__file__)), "../../crates/om_rows_commands/objects"))
from generate import Object, image  # noqa: E402

LOOP = """
    ldah r1,1024(r31)
    loop: ldq r2,0(r30)
    addq r3,r2,r3
    subq r1,#1,r1
    bne r1,loop
    lda r16,0(r31)
    lda r0,1(r31)
    callsys
"""

with open(sys.argv[1], "wb") as f:
    f.write(image(Object(LOOP).words))
