"""Asks a processor's memory type registers: are the MTRRs lawful, which type has each page, would fewer pairs do?

    >>> import mtrr
    >>> for cpu in mtrr.read("my.dump"):
    ...     print(cpu.faults(), cpu.type_at(0xfee00000), cpu.tidy().used)

The answers are those of libmtrr.so, whose code is proved against Intel's manual. See README.md beside this package."""
from ._library import VERSION as __version__
from ._library import NotFound
from ._registers import (
    ANY_CHUNK, NAMES, BadDump, Error, Fault, FaultError, MemoryType, NotAFile, Reason, Registers, Rounded, Run, Tidied, TooFew, parse, read,
)

__all__ = [
    "ANY_CHUNK", "NAMES", "BadDump", "Error", "Fault", "FaultError", "MemoryType", "NotAFile", "NotFound", "Reason", "Registers", "Rounded",
    "Run", "Tidied", "TooFew", "__version__", "parse", "read",
]
