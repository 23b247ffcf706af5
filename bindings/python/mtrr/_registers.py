"""A processor's range registers, and the questions to them."""
import ctypes
import enum
import threading
from ctypes import byref, c_size_t, c_uint32
from dataclasses import dataclass, field
from typing import Any, Callable, Dict, Iterable, List, Optional, Tuple, Union

from . import _library

PAGE = 4096
CAPABILITIES, PAT, DEFAULT_TYPE = 0xFE, 0x277, 0x2FF
FIXED = (0x250, 0x258, 0x259, *range(0x268, 0x270))
POWER_UP_PAT = 0x0007040600070406
ANY_CHUNK = 1 << 52
# Where a register's value is in the library's struct.
PLACES = {CAPABILITIES: 1, **{0x200 + n: 2 + n for n in range(64)}, **{number: 66 + n for n, number in enumerate(FIXED)}, PAT: 77, DEFAULT_TYPE: 78}
NAMES = {CAPABILITIES: "IA32_MTRRCAP", PAT: "IA32_PAT", DEFAULT_TYPE: "IA32_MTRR_DEF_TYPE",
         **{0x200 + n: f"IA32_MTRR_PHYS{('BASE', 'MASK')[n % 2]}{n // 2}" for n in range(64)},
         0x250: "IA32_MTRR_FIX64K_00000", 0x258: "IA32_MTRR_FIX16K_80000", 0x259: "IA32_MTRR_FIX16K_A0000",
         **{0x268 + n: f"IA32_MTRR_FIX4K_{0xC0 + 8 * n:X}000" for n in range(8)}}


class MemoryType(enum.Enum):
    """A memory type, by the byte that the registers hold."""

    UC = 0
    WC = 1
    WT = 4
    WP = 5
    WB = 6


KINDS: Dict[int, MemoryType] = {kind.value: kind for kind in MemoryType}


class Reason(enum.Enum):
    """What is wrong with a register."""

    RESERVED_BIT = 1
    UNSUPPORTED_TYPE = 2
    BROKEN_MASK = 3
    UNDEFINED_OVERLAP = 4

    def __str__(self) -> str:
        return self.name.lower().replace("_", " ")


@dataclass(frozen=True)
class Fault:
    """A register at fault, by its number. At an undefined overlap it is the base of the lowest pair that matches such a page."""

    register: int
    reason: Reason

    def __str__(self) -> str:
        return f"{self.register:03x} {NAMES[self.register]}: {self.reason}"


@dataclass(frozen=True)
class Run:
    """Pages of one type: addresses from `start` up to `end`, which isn't among them. The type is None where none is defined."""

    start: int
    end: int
    kind: Optional[MemoryType]

    def __str__(self) -> str:
        return f"{self.start:013x}-{self.end - 1:013x} {self.kind.name if self.kind else 'undefined'}"


class Error(Exception):
    """Why a call has no answer."""


class NotAFile(Error):
    """No processor has these registers: the width, the number of pairs, or a register that isn't there."""


class BadDump(Error):
    """The text is no dump. It says the line, the column and the reason."""


class FaultError(Error):
    """A register is at fault: `fault`."""

    def __init__(self, fault: Fault) -> None:
        super().__init__(str(fault))
        self.fault = fault


class TooFew(Error):
    """The types need more pairs (`needs`) than may be used (`has`)."""

    def __init__(self, needs: int, has: int) -> None:
        super().__init__(f"the types need {needs} pairs, and {has} may be used")
        self.needs, self.has = needs, has


REFUSALS = {
    3: "the address is beyond the physical address space", 4: "the pairs that meet at this page have no defined type",
    5: "the PAT has entries 0 to 7", 9: "the range registers are off: E of IA32_MTRR_DEF_TYPE is clear",
    11: "a granule is a power of two from 4 KB to 1 TB",
}


def _fits(number: int, bits: int) -> int:
    """The number, which `ctypes` would cut to so many bits."""
    if not 0 <= number < 1 << bits:
        raise Error(f"{number:#x} isn't a number of {bits} bits")
    return number


class Room(threading.local):
    """What a thread's calls work in."""

    def __init__(self) -> None:
        self.work = _library.Work()


_room = Room()
_calls: Any = None


def calls() -> Any:
    """The library, which is looked for at the first call."""
    global _calls
    if _calls is None:
        _calls = _library.load()
    return _calls


@dataclass(frozen=True)
class Registers:
    """The range registers and the PAT of a processor. The values may be at fault: `faults` looks.

    `pairs` has base and mask of each pair that the processor has, and `fixed` the eleven fixed-range registers, or nothing."""

    width: int
    capabilities: int
    pairs: Tuple[Tuple[int, int], ...]
    fixed: Tuple[int, ...]
    pat: int
    default_type: int
    _words: Any = field(init=False, repr=False, compare=False)

    def __post_init__(self) -> None:
        count, fixed = self.capabilities & 0xFF, 11 if self.capabilities >> 8 & 1 else 0
        if not (count == len(self.pairs) <= 32 and fixed == len(self.fixed)):
            raise NotAFile(f"a processor with capabilities {self.capabilities:x} has {count} pairs and {fixed} fixed-range registers")
        flat = [word for pair in self.pairs for word in pair]
        words = [self.width, self.capabilities, *flat, *[0] * (64 - len(flat)), *(self.fixed or [0] * 11), self.pat, self.default_type]
        if not all(0 <= word < 1 << 64 for word in words):
            raise NotAFile("a register has 64 bits")
        object.__setattr__(self, "_words", _library.Words(*words))
        if not calls().mtrr_is_file(self._words):
            raise NotAFile(f"no processor has {self.width} address bits")

    @staticmethod
    def of(width: int, values: Callable[[int], int]) -> "Registers":
        """Registers by a function from numbers to values, such as one that reads the processor's. It is asked for what there is."""
        capabilities = values(CAPABILITIES)
        pairs = tuple((values(number), values(number + 1)) for number in range(0x200, 0x200 + 2 * min(capabilities & 0xFF, 32), 2))
        fixed = tuple(map(values, FIXED)) if capabilities >> 8 & 1 else ()
        return Registers(width, capabilities, pairs, fixed, values(PAT), values(DEFAULT_TYPE))

    @staticmethod
    def _from(words: "ctypes.Array[ctypes.c_uint64]") -> "Registers":
        """Registers of words that the library has written, which are a register file's."""
        made = object.__new__(Registers)
        width, capabilities, *rest = words[:]
        pairs = tuple(zip(rest[0 : 2 * (capabilities & 0xFF) : 2], rest[1::2]))
        fixed = tuple(rest[64:75]) if capabilities >> 8 & 1 else ()
        made.__dict__.update(width=width, capabilities=capabilities, pairs=pairs, fixed=fixed, pat=rest[75], default_type=rest[76], _words=words)
        return made

    def values(self) -> List[Tuple[int, int]]:
        """The registers in ascending order, each with its value."""
        flat = [word for pair in self.pairs for word in pair]
        return [(CAPABILITIES, self.capabilities), *enumerate(flat, 0x200), *zip(FIXED, self.fixed), (PAT, self.pat), (DEFAULT_TYPE, self.default_type)]

    def dump(self) -> str:
        """The canonical text, as `mtrr show` writes it."""
        return f"maxphyaddr {self.width}\n" + "".join(f"{number:03x} {value:016x}\n" for number, value in self.values())

    def _refusal(self, status: int, need: Any = (0, 0)) -> Error:
        if status == 1:
            return FaultError(self.faults()[0])
        if status == 10:
            return TooFew(*need)
        return Error(REFUSALS.get(status, f"the library returned {status}"))

    def faults(self) -> List[Fault]:
        """Each register at fault by itself, in ascending order, with the first thing that is wrong with it. If there is none, the lowest
        pair that matches a page with no defined type."""
        found: List[Fault] = []
        words, fault = _library.Words(*self._words), _library.Fault()
        # A register of zeros has no fault by itself, so the next call finds the next one.
        while calls().mtrr_first_fault(words, byref(fault)) == 1:
            if fault.reason == Reason.UNDEFINED_OVERLAP.value and found:
                break
            found.append(Fault(fault.number, Reason(fault.reason)))
            if fault.reason == Reason.UNDEFINED_OVERLAP.value:
                break
            words[PLACES[fault.number]] = 0
        return found

    def type_at(self, address: int) -> MemoryType:
        """The type that the range registers give the page of an address, whether or not a register is at fault."""
        kind = c_uint32()
        if status := calls().mtrr_page_type(self._words, _fits(address, 64) >> 12, byref(kind)):
            raise self._refusal(status)
        return KINDS[kind.value]

    def effective_type_at(self, address: int, entry: int) -> MemoryType:
        """The type in effect for the page of an address whose mapping chooses this entry of the PAT."""
        kind = c_uint32()
        if status := calls().mtrr_effective_type(self._words, _fits(address, 64) >> 12, _fits(entry, 32), byref(kind)):
            raise self._refusal(status)
        return KINDS[kind.value]

    def types(self) -> List[Run]:
        """The type of each page, in runs as long as can be. Raises FaultError if a register is at fault by itself."""
        runs, count = (_library.Run * _library.MAX_RUNS)(), c_size_t()
        if status := calls().mtrr_type_map(self._words, runs, _library.MAX_RUNS, byref(count)):
            raise self._refusal(status)
        return _runs(runs[: count.value])

    def tidy(self, spare: int = 1, chunk: int = ANY_CHUNK) -> "Tidied":
        """The registers with the same types in the fewest pairs: no list is shorter in which the larger of two pairs that share a page
        has at most `chunk` bytes. `spare` pairs stay unused. Raises FaultError, TooFew, and Error if the range registers are off."""
        words, need = _library.Words(), _library.Two()
        if status := calls().mtrr_tidy(self._words, _fits(spare, 8), _fits(chunk, 64), _room.work, words, need):
            raise self._refusal(status, need)
        return Tidied(Registers._from(words), need[0], need[1])

    def gran(self, size: int, spare: int = 1, chunk: int = ANY_CHUNK) -> "Rounded":
        """As `tidy`, for types rounded to granules of `size` bytes: a granule whose pages have several types gets UC."""
        words, need, loss, parts = _library.Words(), _library.Two(), _library.Two(), (_library.Run * _library.MAX_PARTS)()
        numbers = _fits(size, 64), _fits(spare, 8), _fits(chunk, 64)
        if status := calls().mtrr_gran(self._words, *numbers, _room.work, words, need, loss, parts, _library.MAX_PARTS):
            raise self._refusal(status, need)
        return Rounded(Registers._from(words), need[0], need[1], loss[0], _runs(parts[: loss[1]]))


@dataclass(frozen=True)
class Tidied:
    """Registers, how many pairs of them are valid, and how many may be used."""

    registers: Registers
    used: int
    usable: int


@dataclass(frozen=True)
class Rounded(Tidied):
    """The same of rounded types, with how many pages had WB and get UC, and the runs of one type that get UC."""

    lost_pages: int
    parts: List[Run]


def _runs(runs: Iterable[_library.Run]) -> List[Run]:
    return [Run(run.first * PAGE, (run.first + run.pages) * PAGE, KINDS.get(run.kind)) for run in runs]


def parse(text: Union[str, bytes]) -> List[Registers]:
    """The registers of each processor that a dump shows, as `mtrr show` reads it."""
    ran = _library.shown(text.encode() if isinstance(text, str) else text)
    said = (ran.stdout + ran.stderr).decode(errors="replace")
    if ran.returncode != 0:
        raise BadDump(said.strip())
    files: List[Dict[str, str]] = []
    for first, second in (line.split() for line in said.splitlines()):
        if first == "maxphyaddr":
            files.append({})
        if first not in ("version", "cpu"):
            files[-1][first] = second
    return [Registers.of(int(file["maxphyaddr"]), lambda number: int(file[f"{number:03x}"], 16)) for file in files]


def read(path: str) -> List[Registers]:
    """The registers of each processor that the dump in a file shows."""
    with open(path, "rb") as file:
        return parse(file.read())
