"""The same as bench/calls.c, by the package for Python."""
import timeit

import mtrr

PAIRS = ((6, 0xF80000800), (0x80000006, 0xFC0000800), *[(0, 0)] * 6)
CPU = mtrr.Registers(36, 0x508, PAIRS, (0,) * 11, 0x0007040600070406, 0x800)


def least(call, calls):
    return min(timeit.repeat(call, number=calls, repeat=500)) / calls * 1e9


print(f"Python: type_at {least(lambda: CPU.type_at(0xFEE00000), 100):.0f} ns, tidy {least(lambda: CPU.tidy(), 20):.0f} ns")
