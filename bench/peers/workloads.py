"""Writes the workload programs, one a line: NAME HEX STEPS.

`filter` tests the end of its frame first, in three instructions. apd and the kernel's interpreter are given that end
in R2; DPDK's programs have R1 alone, so there the test is of R1: as many instructions, and the same way taken.
"""
import struct
import sys

ADD, SUB, MUL, OR, AND, LSH, RSH, XOR, MOV = 0x07, 0x17, 0x27, 0x47, 0x57, 0x67, 0x77, 0xA7, 0xB7
REGISTER = 8  # the second operand is a register
LOAD_BYTE, LOAD_HALF, BIG_ENDIAN = 0x71, 0x69, 0xDC
JNE, JGT_REGISTER, JLT_REGISTER, EXIT = 0x55, 0x2D, 0xAD, 0x95


def slot(op, dst=0, src=0, offset=0, immediate=0):
    return struct.pack("<BBhi", op, dst | src << 4, offset, immediate)


def straight(count):
    """64-bit arithmetic without a jump."""
    turn = [
        slot(ADD | REGISTER, 0, 1), slot(MUL, 0, 0, 0, 1103515245), slot(XOR | REGISTER, 0, 2), slot(LSH, 1, 0, 0, 1),
        slot(SUB | REGISTER, 2, 0), slot(AND, 1, 0, 0, 0x7FFFFFFF), slot(RSH, 2, 0, 0, 3), slot(OR | REGISTER, 1, 0),
    ]
    start = slot(MOV, 0, 0, 0, 1) + slot(MOV, 1, 0, 0, 7) + slot(MOV, 2, 0, 0, -3)
    return start + b"".join(turn[at % 8] for at in range(count - 4)) + slot(EXIT), count


def loop(turns):
    """A counter: three instructions a turn."""
    body = slot(ADD, 0, 0, 0, 1) + slot(SUB, 1, 0, 0, 1) + slot(JNE, 1, 0, -3, 0)
    return slot(MOV) + slot(MOV, 1, 0, 0, turns) + body + slot(EXIT), 3 + 3 * turns


def loop8(turns):
    """Eight instructions a turn."""
    body = slot(ADD | REGISTER, 0, 1) + slot(MUL, 0, 0, 0, 1103515245) + slot(XOR | REGISTER, 0, 2)
    body += slot(ADD | REGISTER, 2, 1) + slot(SUB | REGISTER, 2, 0) + slot(RSH, 2, 0, 0, 3)
    body += slot(SUB, 1, 0, 0, 1) + slot(JNE, 1, 0, -8, 0)
    return slot(MOV) + slot(MOV, 1, 0, 0, turns) + slot(MOV, 2, 0, 0, 5) + body + slot(EXIT), 4 + 8 * turns


def port_filter(is_dpdk):
    """0 for LLC/SNAP, IPv4 and UDP to port 53 behind a header of 24 bytes, else 1. The benches' frame takes the long way."""
    rest = [
        slot(LOAD_BYTE, 2, 1, 24), slot(JNE, 2, 0, 21, 0xAA), slot(LOAD_BYTE, 2, 1, 25), slot(JNE, 2, 0, 19, 0xAA),
        slot(LOAD_HALF, 2, 1, 30), slot(BIG_ENDIAN, 2, 0, 0, 16), slot(JNE, 2, 0, 16, 0x0800),
        slot(LOAD_BYTE, 3, 1, 32), slot(MOV | REGISTER, 4, 3), slot(RSH, 4, 0, 0, 4), slot(JNE, 4, 0, 12, 4),
        slot(AND, 3, 0, 0, 15), slot(JNE, 3, 0, 10, 5), slot(LOAD_BYTE, 2, 1, 41), slot(JNE, 2, 0, 8, 17),
        slot(LOAD_HALF, 2, 1, 38), slot(AND, 2, 0, 0, 0x1FFF), slot(JNE, 2, 0, 5, 0),
        slot(LOAD_HALF, 2, 1, 54), slot(BIG_ENDIAN, 2, 0, 0, 16), slot(JNE, 2, 0, 2, 53),
        slot(MOV), slot(EXIT), slot(MOV, 0, 0, 0, 1), slot(EXIT),
    ]
    to_drop = len(rest) - 2
    beyond = slot(JLT_REGISTER, 4, 1, to_drop) if is_dpdk else slot(JGT_REGISTER, 4, 2, to_drop)
    return slot(MOV | REGISTER, 4, 1) + slot(ADD, 4, 0, 0, 56) + beyond + b"".join(rest), 26


def main():
    programs = {
        "straight64": straight(64),
        "straight4096": straight(4096),
        "loop": loop(300000),
        "loop8": loop8(120000),
        "filter": port_filter(sys.argv[1:] == ["dpdk"]),
        "shortest": (slot(MOV, 0, 0, 0, 1) + slot(EXIT), 2),
    }
    for name, (code, steps) in programs.items():
        print(name, code.hex(), steps)


main()
