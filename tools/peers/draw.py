"""Random register files, by kind, and the pages of a file at which judges are asked. A seed determines them."""
import random

from second_reading import (
    CAP_WC, DEF_TYPE, E, FE, FIX, FIXED, MEMORY_TYPES, PAT, PAT_TYPES, POWER_UP_PAT, UC, VALID, WB, WC, WT, Registers, pair_of,
    ranges_of,
)

GB = 1 << 18  # in pages


def value_of(parts):
    return sum(part << (8 * place) for place, part in enumerate(parts))


class Draw:
    """The random files of a seed."""

    def __init__(self, seed):
        self.random = random.Random(seed)

    def chance(self, of):
        return self.random.randrange(of) == 0

    def kinds(self, cap):
        return [kind for kind in MEMORY_TYPES if kind != WC or cap & CAP_WC]

    def head(self, least=0):
        """A width, capabilities with at least so many pairs, and no pair yet."""
        pick = self.random
        width = pick.choice((32, 36, 36, 39, 40, 46, 48, 52, pick.randint(32, 52)))
        count = max(least, pick.choice((8, 8, 10, 10, pick.randint(0, 12), pick.randint(0, 32))))
        cap = count | (0 if self.chance(8) else FIX) | (0 if self.chance(8) else CAP_WC) | (0x800 if self.chance(4) else 0)
        return width, cap

    def rest(self, width, cap, pairs):
        """The file of these pairs, put in some order, with fixed ranges, PAT and default type drawn."""
        pick, kinds = self.random, self.kinds(cap)
        pairs = list(pairs)
        pick.shuffle(pairs)
        gaps = (cap & 0xFF) - len(pairs)
        for _ in range(gaps if self.chance(3) else 0):
            pairs.insert(pick.randint(0, len(pairs)), (0, 0))
        fixed = [0] * 11
        if cap & FIX:
            draw = pick.choice((lambda: WB, lambda: pick.choice(kinds), lambda: pick.choice((UC, WB))))
            fixed = [value_of(draw() for _ in range(8)) for _ in FIXED]
        pat = POWER_UP_PAT if self.chance(2) else value_of(pick.choice(PAT_TYPES) for _ in range(8))
        kind = pick.choice((UC, UC, WB, pick.choice(kinds)))
        enabled = E | (FE if cap & FIX and not self.chance(4) else 0)
        return Registers(width, cap, pairs, fixed, pat, kind | enabled)

    def log(self, width):
        """The logarithm of a block's pages: any, or one that firmware uses, from 1 MB to 4 GB."""
        top = width - 12
        return self.random.choice((self.random.randint(0, top), min(top, self.random.randint(8, 20))))

    def block(self, width, log=None):
        log = self.log(width) if log is None else log
        return self.random.randrange(1 << (width - 12 - log)) << log, log

    def near(self, width, page):
        """A block that holds the page, or its neighbour of the same size."""
        log = self.log(width)
        first = page >> log << log
        if self.chance(5) and log < width - 12:
            first ^= 1 << log
        return first, log

    # The kinds of files.

    def apart(self):
        """Ranges that share no page."""
        width, cap = self.head(2)
        taken, pairs = [], []
        for _ in range(self.random.randint(1, cap & 0xFF)):
            first, log = self.block(width, min(self.log(width), width - 14))
            if all(first >= end or first + (1 << log) <= begin for begin, end in taken):
                taken.append((first, first + (1 << log)))
                pairs.append(pair_of(first, log, self.random.choice(self.kinds(cap)), width))
        return self.rest(width, cap, pairs)

    def overlapping(self, kinds=None):
        """Ranges about one page, of any types or of these."""
        width, cap = self.head(2)
        page = self.random.randrange(1 << (width - 12))
        if self.chance(3):
            page = self.random.randrange(min(1 << (width - 12), 4 * GB))
        kinds = kinds or self.kinds(cap)
        count = self.random.randint(2, min(cap & 0xFF, 8))
        pairs = [pair_of(*self.near(width, page), self.random.choice(kinds), width) for _ in range(count)]
        return self.rest(width, cap, pairs)

    def with_defined_overlaps(self):
        """Ranges of WB, WT and UC, of which each overlap has a type."""
        return self.overlapping(self.random.choice(((WB, UC), (WB, WT), (WB, WT, UC))))

    def under_uc(self):
        """Ranges whose types clash, and one of UC over all of them."""
        width, cap = self.head(3)
        log = self.random.randint(1, width - 12)
        first, _ = self.block(width, log)
        pairs = [pair_of(first, log, UC, width)]
        for _ in range(self.random.randint(2, min(cap & 0xFF, 6) - 1)):
            inner = self.random.randrange(log + 1)
            place = first + (self.random.randrange(1 << (log - inner)) << inner)
            pairs.append(pair_of(place, inner, self.random.choice(self.kinds(cap)), width))
        return self.rest(width, cap, pairs)

    def unaligned(self):
        """Ranges of whose bases some have bits below the mask's lowest one."""
        file = self.random.choice((self.apart, self.overlapping, self.with_defined_overlaps))()
        for place, (base, mask) in enumerate(file.pairs):
            below = ~mask >> 12 & (file.pages() - 1)
            if mask & VALID and below and not self.chance(3):
                file.pairs[place] = (base | (self.random.randint(1, below) & below) << 12, mask)
        return file

    def off(self):
        """The MTRRs off."""
        file = self.random.choice((self.apart, self.overlapping))()
        file.def_type &= ~E
        return file

    def whole(self):
        """A range over the whole address space, or half of it, and others."""
        width, cap = self.head(3)
        log = width - 12 - self.random.randrange(2)
        kind = self.random.choice(self.kinds(cap))
        pairs = [pair_of(self.random.randrange(1 << (width - 12 - log)) << log, log, kind, width)]
        for _ in range(self.random.randint(0, 2)):
            pairs.append(pair_of(*self.block(width), self.random.choice((UC, kind)), width))
        return self.rest(width, cap, pairs)

    def broken(self):
        """A file of another kind with one field of one register turned, or without a bit of the capabilities."""
        file = self.random.choice((self.apart, self.overlapping, self.with_defined_overlaps))()
        pick = self.random
        numbers = [number for number, _ in file.writable()]
        kind = pick.choice(("base", "mask", "mask", "gap", "fixed", "pat", "default", "any", "cap"))
        if kind == "cap":
            return self.without_bit(file)
        wanted = {
            "fixed": [number for number in numbers if number in FIXED], "pat": [PAT], "default": [DEF_TYPE], "any": numbers,
            "base": [number for number in numbers if number < 0x250 and number % 2 == 0],
        }.get(kind, [number for number in numbers if number < 0x250 and number % 2])
        number = pick.choice(wanted or numbers)
        file.put(number, self.turned(file.width, kind)(dict(file.writable())[number]))
        return file

    def without_bit(self, file):
        """The file of a processor that has no WC, or no fixed ranges."""
        if self.random.randrange(2):
            file.cap &= ~CAP_WC
        else:
            file.cap &= ~FIX
            file.fixed = [0] * 11
        return file

    def turned(self, width, kind):
        """How a register's value is turned so that this field may be wrong."""
        pick = self.random
        if kind == "base":
            flips = (1 << pick.randint(8, 11), 1 << pick.randint(width - 2, 63), pick.randint(1, 7), pick.randint(1, 255))
        elif kind == "mask":
            flips = (1 << pick.randint(0, 10), 1 << pick.randint(width - 2, 63))
        elif kind == "gap":
            return lambda value: (value | VALID) ^ 1 << pick.randint(12, width - 1)
        elif kind in ("fixed", "pat"):
            flips = (pick.randint(1, 255) << 8 * pick.randrange(8), pick.randint(1, 7) << 8 * pick.randrange(8))
        elif kind == "default":
            flips = (1 << pick.randint(8, 63), 1 << pick.randint(8, 13), pick.randint(1, 7), pick.randint(1, 255))
        else:
            flips = (pick.getrandbits(64), 1 << pick.randrange(64))
        flip = pick.choice(flips)
        return lambda value: value ^ flip

    # Maps that a least list of pairs is asked for. Their fixed ranges are on and WB, so the first megabyte is free.

    def map_of(self, width, pairs, default):
        cap = 32 | FIX | CAP_WC
        return Registers(width, cap, pairs, [value_of([WB] * 8)] * 11, POWER_UP_PAT, default | E | FE)

    def cut(self, begin, end):
        """The aligned blocks that the pages from begin to end are cut into."""
        while begin < end:
            log = (end - begin).bit_length() - 1
            if begin:
                log = min(log, (begin & -begin).bit_length() - 1)
            yield begin, log
            begin += 1 << log

    def computer(self):
        """A PC's: memory below 4 GB with holes at its top, memory above it, and some devices that are WC."""
        pick, width = self.random, self.random.choice((36, 39, 46))
        unit = pick.choice((1 << 8, 1 << 10, 1 << 12, 1 << 14))  # 1, 4, 16, 64 MB
        low = pick.randrange(GB // 2, 4 * GB, unit)
        high = 4 * GB + pick.randrange(0, 12 * GB, unit)
        blocks = [(0, low)] if pick.randrange(2) else [(0, 4 * GB)]
        holes = [(low, 4 * GB)] if blocks[0][1] != low else []
        if pick.randrange(2):
            top = min(low, blocks[0][1])
            holes.append((top - unit * pick.randint(1, 4), top))
        if high > 4 * GB:
            blocks.append((4 * GB, high))
        pairs = [pair_of(*block, WB, width) for part in blocks for block in self.cut(*part)]
        pairs += [pair_of(*block, UC, width) for part in holes for block in self.cut(*part)]
        if blocks[0][1] == low and low < 7 * GB // 2 and self.chance(2):
            pairs.append(pair_of(7 * GB // 2, pick.randint(8, 16), WC, width))
        return self.map_of(width, pairs, UC)

    def taken_out(self):
        """WB or another default, and ranges taken out of it, or out of one over all of it."""
        pick, width = self.random, self.random.choice((36, 40, 46))
        kinds = pick.choice(((UC,), (UC,), (UC, WT)))
        pairs = [pair_of(*self.block(width, pick.randint(0, width - 13)), pick.choice(kinds), width)
                 for _ in range(pick.randint(1, 6))]
        if self.chance(3):
            return self.map_of(width, pairs, WB)
        return self.map_of(width, [*pairs, pair_of(0, width - 12, WB, width)], UC)

    def chain(self):
        """Ranges that lie in one another, of WB and UC, or with WT among them."""
        pick, width = self.random, self.random.choice((36, 46))
        page, kinds = pick.randrange(1 << (width - 12)), pick.choice(((WB, UC), (WB, UC), (WB, WT, UC)))
        pairs = []
        for log in sorted(pick.sample(range(width - 12), pick.randint(2, 12)), reverse=True):
            pairs.append(pair_of(page >> log << log, log, pick.choice(kinds), width))
        return self.map_of(width, pairs, pick.choice((UC, UC, WB)))

    def lone(self):
        """Lone small blocks far apart."""
        pick, width = self.random, self.random.choice((36, 46, 52))
        kind, log = pick.choice((UC, WT)), pick.choice((0, 0, 4, 8))
        pairs = [pair_of(*self.block(width, log), kind, width) for _ in range(pick.randint(1, 10))]
        return self.map_of(width, pairs, pick.choice((WB, WT)))

    def mixed(self):
        """Ranges apart or about one page, of any types that go together."""
        file = self.random.choice((self.apart, self.with_defined_overlaps))()
        pairs = [pair for pair in file.pairs if pair[1] & VALID]
        return self.map_of(file.width, pairs, self.random.choice((UC, UC, WB, self.random.choice(MEMORY_TYPES))))

    FILES = (
        ("ranges apart", apart), ("ranges that overlap", overlapping), ("overlaps of WB, WT, UC", with_defined_overlaps),
        ("UC over a clash", under_uc), ("bases not aligned", unaligned), ("the whole space", whole),
        ("one field turned", broken), ("one field turned", broken), ("MTRRs off", off),
        ("ranges that overlap", overlapping), ("overlaps of WB, WT, UC", with_defined_overlaps),
    )
    MAPS = (
        ("a PC's", computer), ("a PC's", computer), ("taken out of one type", taken_out), ("in one another", chain),
        ("lone blocks", lone), ("mixed", mixed),
    )


def nested(place):
    """Pair `place` of ten nests in 52 bits: WT within WB, and UC within that WT or beside it."""
    nest, part = divmod(place, 3)
    within = (2 * nest + 1) << (24 - nest)
    log = (34 - nest % 4, 24 - nest, 14 - nest)[part]
    first = (0, within, (5 << (14 - nest)) + (within if nest % 2 == 0 else 0))[part]
    return pair_of((nest << 35) + first, log, (WB, WT, UC)[part], 52)


def hard_maps(draw):
    """Maps that take searches long: nests, twenty ranges in one another beside twelve more, and lone pages far apart."""
    yield draw.map_of(52, [nested(place) for place in range(32)], UC)
    page = 0x5555555555
    chain = [pair_of(page >> log << log, log, (WB, UC)[place % 2], 52) for place, log in enumerate(range(39, -1, -2))]
    yield draw.map_of(52, chain + [pair_of((place << 36) + (1 << 20), place, UC, 52) for place in range(2, 14)], UC)
    yield draw.map_of(52, [pair_of((place << 35) + 0x1234567, 0, UC, 52) for place in range(31)] + [pair_of(0, 40, WB, 52)], UC)


def pages_of(registers, pick):
    """The pages to ask about: each edge and one page before and after it, and some at random."""
    last = registers.pages() - 1
    edges = {0, 256, last}
    for one in ranges_of(registers):
        edges.update((one.first, one.base, one.last + 1, one.base + one.last + 1 - one.first))
    if registers.def_type & FE:
        starts = [*range(0, 0x80, 16), *range(0x80, 0xC0, 4), *range(0xC0, 0x100)]
        edges.update(starts if pick.randrange(16) == 0 else pick.sample(starts, 4))
    pages = {edge + step for edge in edges for step in (-1, 0, 1)}
    pages.update(pick.randint(0, last) for _ in range(4))
    pages.update(pick.randint(0, min(last, 4 * GB)) for _ in range(4))
    return sorted(page for page in pages if 0 <= page <= last)
