"""A large object: its start calls a procedure that calls 512 others, each of which adds a quadword of `.data` to a sum."""
import struct

from assembly import TEXT, Object

PROCEDURES = 512


def sums():
    """The object, which exits with the sum of its quadwords modulo 256. All that it calls and loads stands in its table."""
    lines = "pair r27\nbis r31,r31,r0\nlit r27,d0\njsr r26,(r27)\npair r26\nbis r31,r0,r16\nlda r0,1(r31)\ncallsys\n"
    lines += "d0: pair r27,d0\nlda r30,-16(r30)\nstq r26,0(r30)\n"
    lines += "".join("lit r27,p%d\njsr r26,(r27)\npair r26\n" % k for k in range(PROCEDURES))
    lines += "ldq r26,0(r30)\nlda r30,16(r30)\nret r31,(r26)\n"
    for k in range(PROCEDURES):
        lines += "p%d: pair r27,p%d\nlit r1,.data+%d\nldq r2,0(r1)\naddq r0,r2,r0\nret r31,(r26)\n" % (k, k, 8 * k)
    data = b"".join(struct.pack("<Q", k % 256) for k in range(PROCEDURES))
    return Object(lines, [(3, len(data), data)], symbols=[("d0", 40, TEXT)])


GENERATED = {"GENERATED": sums()}
