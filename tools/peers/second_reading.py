"""Register files, and what docs/MODEL.md says of them, read once more in Python: a second reader beside the program.

A `Reading` may have a plant: one cell that is wrong. `tools/peers/run -x NAME` puts such a reading in the program's place."""
from functools import cached_property

UC, WC, WT, WP, WB, UC_MINUS = 0, 1, 4, 5, 6, 7
MEMORY_TYPES = (UC, WC, WT, WP, WB)
PAT_TYPES = (UC, WC, WT, WP, WB, UC_MINUS)
NAMES = {UC: "UC", WC: "WC", WT: "WT", WP: "WP", WB: "WB", UC_MINUS: "UC-"}
BYTES = {name: byte for byte, name in NAMES.items()}
UNDEFINED = None

CAP = 0xFE
FIXED = (0x250, 0x258, 0x259, *range(0x268, 0x270))
PAT, DEF_TYPE = 0x277, 0x2FF
POWER_UP_PAT = 0x0007040600070406
FIX, CAP_WC = 1 << 8, 1 << 10
VALID = 1 << 11
FE, E = 1 << 10, 1 << 11

RESERVED, UNSUPPORTED, BROKEN, OVERLAP = "reserved bit", "unsupported type", "broken mask", "undefined overlap"

# Rows: MTRR type. Columns: UC, UC-, WC, WT, WB, WP of the PAT.
EFFECTIVE = {
    UC: (UC, UC, WC, UC, UC, UC),
    WC: (UC, WC, WC, UC, WC, UC),
    WT: (UC, UC, WC, WT, WT, WP),
    WB: (UC, UC, WC, WT, WB, WP),
    WP: (UC, WC, WC, WT, WP, WP),
}
COLUMNS = (UC, UC_MINUS, WC, WT, WB, WP)


def parts_of(value):
    return [value >> shift & 0xFF for shift in range(0, 64, 8)]


class Registers:
    """The registers of one processor."""

    __slots__ = ("width", "cap", "pairs", "fixed", "pat", "def_type")

    def __init__(self, width=36, cap=0x508, pairs=(), fixed=(0,) * 11, pat=POWER_UP_PAT, def_type=E):
        self.width, self.cap, self.pat, self.def_type = width, cap, pat, def_type
        self.pairs = list(pairs) + [(0, 0)] * ((cap & 0xFF) - len(pairs))
        self.fixed = list(fixed)

    def key(self):
        return (self.width, self.cap, tuple(self.pairs), tuple(self.fixed), self.pat, self.def_type)

    def writable(self):
        """Each writable register and its value, in ascending order."""
        for place, (base, mask) in enumerate(self.pairs):
            yield 0x200 + 2 * place, base
            yield 0x201 + 2 * place, mask
        if self.cap & FIX:
            yield from zip(FIXED, self.fixed)
        yield PAT, self.pat
        yield DEF_TYPE, self.def_type

    def put(self, number, value):
        if number == PAT:
            self.pat = value
        elif number == DEF_TYPE:
            self.def_type = value
        elif number in FIXED:
            self.fixed[FIXED.index(number)] = value
        else:
            place, is_mask = divmod(number - 0x200, 2)
            base, mask = self.pairs[place]
            self.pairs[place] = (base, value) if is_mask else (value, mask)

    def text(self):
        """A dump of these registers, without the lines that say nothing."""
        lines = [] if self.width == 36 else [f"maxphyaddr {self.width}"]
        lines.append(f"0fe {self.cap:x}")
        usual = {PAT: POWER_UP_PAT}
        lines += [f"{number:03x} {value:x}" for number, value in self.writable() if value != usual.get(number, 0)]
        return "\n".join(lines) + "\n"

    def canonical(self):
        """The canonical text, as `mtrr show` writes it."""
        lines = [f"maxphyaddr {self.width}", f"0fe {self.cap:016x}"]
        lines += [f"{number:03x} {value:016x}" for number, value in self.writable()]
        return "\n".join(lines) + "\n"

    def line(self):
        """The same for the judges: width, capabilities, PAT, default type, the fixed ranges, the pairs."""
        words = [self.width, self.cap, self.pat, self.def_type, *self.fixed]
        for pair in self.pairs:
            words += pair
        return " ".join(f"{word:x}" for word in words)

    def pages(self):
        return 1 << (self.width - 12)

    def is_fixed(self, page):
        return page < 256 and bool(self.def_type & FE)


def pair_of(first, log, kind, width):
    """The pair that matches the 2^log pages from page `first` on."""
    pages = (1 << (width - 12)) - 1
    return first << 12 | kind, (pages & ~((1 << log) - 1)) << 12 | VALID


class Range:
    """A valid pair: it matches a page exactly where the page and the base agree in the mask's bits."""

    __slots__ = ("base", "mask", "kind", "first", "last", "has_gap")

    def __init__(self, base, mask, width):
        pages = (1 << (width - 12)) - 1
        self.base, self.mask, self.kind = base >> 12 & pages, mask >> 12 & pages, base & 0xFF
        below = ~self.mask & pages
        self.has_gap = bool(below & (below + 1))
        self.first = self.base & self.mask
        self.last = self.first | below

    def matches(self, page):
        return page & self.mask == self.first

    def size(self):
        return (self.last - self.first + 1) << 12


def ranges_of(registers):
    return [Range(base, mask, registers.width) for base, mask in registers.pairs if mask & VALID]


def largest_overlap(registers):
    """The largest of the larger ones of two ranges that share a page, in bytes, or 0."""
    ranges = ranges_of(registers)
    sizes = [max(one.size(), other.size()) for place, one in enumerate(ranges) for other in ranges[:place]
             if one.first <= other.last and other.first <= one.last]
    return max(sizes, default=0)


def fixed_type(registers, page):
    if page < 0x80:
        register, part = 0, page // 16
    elif page < 0xC0:
        register, part = 1 + (page - 0x80) // 32, (page - 0x80) // 4 % 8
    else:
        register, part = 3 + (page - 0xC0) // 8, page % 8
    return registers.fixed[register] >> (8 * part) & 0xFF


class Reading:
    """docs/MODEL.md, as read here. PLANTS names the cells that a plant makes wrong."""

    PLANTS = {
        "overlap": "WT and WB that overlap give WB",
        "effective": "PAT UC- over an MTRR type of WP gives UC",
        "mask": "a range begins at its base, not at the base's bits in the mask",
        "zeros": "a mask of zeros matches no page",
    }

    def __init__(self, plant=None):
        self.plant = plant

    def meeting(self, kinds):
        """The rule for a page where valid pairs of these types match, one at least, by its name in docs/EXPLAIN.md; and the type."""
        kinds = set(kinds)
        if len(kinds) == 1:
            return "one-type", kinds.pop()
        if UC in kinds:
            return "uc-wins", UC
        if kinds == {WT, WB}:
            return "wt-over-wb", WB if self.plant == "overlap" else WT
        return "undefined", UNDEFINED

    def matches(self, one, page):
        if self.plant == "mask" and page < one.base:
            return False
        if self.plant == "zeros" and one.mask == 0:
            return False
        return one.matches(page)

    def effective(self, kind, entry):
        if self.plant == "effective" and (kind, entry) == (WP, UC_MINUS):
            return UC
        return EFFECTIVE[kind][COLUMNS.index(entry)]

    def faults(self, registers, number, value):
        """What is wrong with the value of a register by itself, in the order of the tests."""
        high = value >> registers.width
        kinds = MEMORY_TYPES if registers.cap & CAP_WC else (UC, WT, WP, WB)
        is_reserved = is_broken = False
        types = [value & 0xFF]
        if number == PAT:
            kinds, types = PAT_TYPES, parts_of(value)
            is_reserved = any(part >> 3 for part in types)
        elif number == DEF_TYPE:
            is_reserved = value & 0x300 or value >> 12 or (value & FE and not registers.cap & FIX)
        elif number in FIXED:
            types = parts_of(value)
        elif number % 2 == 0:
            is_reserved = value & 0xF00 or high
        else:
            types = []
            is_reserved = value & 0x7FF or high
            is_broken = value & VALID and Range(0, value, registers.width).has_gap
        if is_reserved:
            yield RESERVED
        if any(kind not in kinds for kind in types):
            yield UNSUPPORTED
        if is_broken:
            yield BROKEN

    def of(self, registers):
        return Answers(self, registers)


class Answers:
    """What a reading says of a register file, and what `mtrr` then writes, with its status."""

    def __init__(self, reading, registers):
        self.reading, self.registers, self.ranges = reading, registers, ranges_of(registers)

    @cached_property
    def own_faults(self):
        """Each register with faults by itself, in ascending order, and these."""
        faults = ((number, list(self.reading.faults(self.registers, number, value))) for number, value in self.registers.writable())
        return [(number, reasons) for number, reasons in faults if reasons]

    def matching(self, page):
        """The numbers of the valid pairs that match a page."""
        valid = [place for place, (_, mask) in enumerate(self.registers.pairs) if mask & VALID]
        return [place for place, one in zip(valid, self.ranges) if self.reading.matches(one, page)]

    def decided(self, page):
        """The rule that decides a page's type, where no register has a fault by itself, and the type."""
        registers = self.registers
        if not registers.def_type & E:
            return "off", UC
        if registers.is_fixed(page):
            return "fixed", fixed_type(registers, page)
        kinds = [one.kind for one in self.ranges if self.reading.matches(one, page)]
        return self.reading.meeting(kinds) if kinds else ("default", registers.def_type & 0xFF)

    def type_at(self, page):
        return self.decided(page)[1]

    @cached_property
    def pieces(self):
        """Pages between edges, as (first page, type): the same pairs match all pages of a piece."""
        edges = {0, *range(0, 256, 1 if self.registers.def_type & FE else 256), 256}
        for one in self.ranges:
            edges.update((one.first, one.last + 1, one.base))
        return [(edge, self.type_at(edge)) for edge in sorted(edges) if edge < self.registers.pages()]

    @cached_property
    def runs(self):
        """The runs of pages of one type, as (first page, type), each up to the next one's first."""
        return [piece for last, piece in zip([(0, -1), *self.pieces], self.pieces) if piece[1] != last[1]]

    def spans(self):
        """The runs, as (first page, last page, type)."""
        ends = [first for first, _ in self.runs[1:]] + [self.registers.pages()]
        return [(first, end - 1, kind) for (first, kind), end in zip(self.runs, ends)]

    @cached_property
    def holes(self):
        """The runs of pages of no defined type."""
        return [(first, last) for first, last, kind in self.spans() if kind is UNDEFINED]

    @cached_property
    def fault(self):
        """The number of the first register at fault and why, or None."""
        if self.own_faults:
            number, reasons = self.own_faults[0]
            return number, reasons[0]
        clashing = [place for first, kind in self.pieces if kind is UNDEFINED for place in self.matching(first)]
        return (0x200 + 2 * min(clashing), OVERLAP) if clashing else None

    def to(self, words):
        """What `mtrr` writes for these words, and its status."""
        if words[0] == "page":
            return self.page(int(words[1], 16), int(words[2]))
        return {"check": self.check, "show": self.show, "types": self.types, "tidy": self.tidy}[words[0]]()

    def refused(self):
        number, reason = self.fault
        return f"refused {number:03x} {reason}\n", 1

    def check(self):
        return self.refused() if self.fault else ("accepted\n", 0)

    def show(self):
        return self.registers.canonical(), 0

    def types(self):
        if self.fault:
            return self.refused()
        return "".join(f"{first << 12:013x}-{(last << 12) + 0xFFF:013x} {NAMES[kind]}\n" for first, last, kind in self.spans()), 0

    def page(self, address, index):
        if self.fault:
            return self.refused()
        page, entry = address >> 12, self.registers.pat >> (8 * index) & 0xFF
        if page >= self.registers.pages():
            return f"page {page << 12:013x} outside\n", 0
        kind = self.type_at(page)
        effective = self.reading.effective(kind, entry)
        return f"page {page << 12:013x} mtrr {NAMES[kind]} pat {NAMES[entry]} effective {NAMES[effective]}\n", 0

    def tidy(self):
        """Of a file that isn't tidied, as it is refused or its MTRRs are off."""
        return self.refused() if self.fault else (f"disabled 2ff {self.registers.def_type:016x}\n", 9)
