#!/usr/bin/env python3
"""Reads the range registers of all processors, and prints what is wrong with them, which differ, and whether fewer pairs would do:

    sudo python3 chipsec_mtrr.py

It reads by chipsec if that is installed, and else from /dev/cpu/*/msr. It writes no register. The status is 0 if nothing was found, 1 if
something was, and 2 if the registers can't be read. examples/dump-this-machine writes a dump.
chipsec's calls are taken from what is publicly known, and were tried against a stand-in alone: Debian has no package of chipsec."""
import glob
import os
import re
import sys
from typing import Callable, Dict, List, Sequence, Tuple

import mtrr

# What a register of a processor holds, by their numbers.
Read = Callable[[int, int], int]


def by_chipsec() -> Tuple[Read, Sequence[int], int]:
    """How to read a register, the numbers of the processors, and the width of an address."""
    import chipsec.chipset  # type: ignore[import]

    cs = chipsec.chipset.cs()
    cs.init(None, None, None, True, True)

    def read(cpu: int, number: int) -> int:
        eax, edx = cs.msr.read_msr(cpu, number)
        return int(edx << 32 | eax)

    return read, range(cs.msr.get_cpu_thread_count()), cs.cpu.cpuid(0x80000008, 0)[0] & 0xFF


def by_linux() -> Tuple[Read, Sequence[int], int]:
    def read(cpu: int, number: int) -> int:
        file = os.open(f"/dev/cpu/{cpu}/msr", os.O_RDONLY)
        try:
            return int.from_bytes(os.pread(file, 8, number), "little")
        finally:
            os.close(file)

    with open("/proc/cpuinfo", encoding="ascii", errors="replace") as file:
        width = re.search(r"^address sizes\s*: (\d+) bits physical", file.read(), re.MULTILINE)
    return read, sorted(int(path.split("/")[3]) for path in glob.glob("/dev/cpu/[0-9]*/msr")), int(width[1]) if width else 36


def all_registers() -> Dict[int, mtrr.Registers]:
    """The registers of each processor, by its number."""
    try:
        read, cpus, width = by_chipsec()
    except ImportError:
        read, cpus, width = by_linux()
    if not cpus:
        raise OSError("there is no /dev/cpu/0/msr: load the module by `modprobe msr`")
    return {cpu: mtrr.Registers.of(width, lambda number: read(cpu, number)) for cpu in cpus}


def differences(first: mtrr.Registers, other: mtrr.Registers) -> List[str]:
    mine = dict(first.values())
    return [f"{number:03x} {mtrr.NAMES[number]} is {value:016x}, and {mine.get(number, 0):016x} on the first processor"
            for number, value in other.values() if mine.get(number) != value]


def fewest(cpu: mtrr.Registers) -> str:
    valid = sum(mask >> 11 & 1 for _, mask in cpu.pairs)
    try:
        used = cpu.tidy(spare=0).used
    except mtrr.Error as error:
        return f"{valid} of {len(cpu.pairs)} pairs are valid; {error}"
    return f"{valid} of {len(cpu.pairs)} pairs are valid, and {used} would do"


def main() -> int:
    try:
        cpus = all_registers()
    except (OSError, mtrr.NotFound, mtrr.NotAFile) as error:
        print(f"chipsec_mtrr: {error}", file=sys.stderr)
        return 2
    first, found = next(iter(cpus)), False
    for number, cpu in cpus.items():
        lines = [*map(str, cpu.faults()), *differences(cpus[first], cpu)]
        found = found or bool(lines)
        if lines or number == first:
            print(f"processor {number}: {fewest(cpu)}")
        for line in lines:
            print(f"  {line}")
    if not found:
        print(f"no fault, and {len(cpus)} processors agree")
    return int(found)


if __name__ == "__main__":
    sys.exit(main())
