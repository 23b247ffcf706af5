"""What is compared of register files, and which differences have a name. docs/PEERS.md has the cause of each."""
import threading
from collections import Counter
from functools import cached_property

from second_reading import (
    BROKEN, CAP_WC, COLUMNS, DEF_TYPE, E, EFFECTIVE, FE, FIX, FIXED, MEMORY_TYPES, NAMES, OVERLAP, PAT, RESERVED, UC, UC_MINUS,
    UNDEFINED, UNSUPPORTED, VALID, WB, WC, WP, WT, Range, parts_of,
)

NO_TYPE, ASSERTS, REFUSES = 0xFF, 0xEE, 0xDD
SAMPLES = 3


class Tally:
    """One line of the table: how often a judge was asked of one thing, and what came of it."""

    def __init__(self, judge, what):
        self.judge, self.what = judge, what
        self.same = 0
        self.named = Counter()
        self.others = 0
        self.samples = {}
        self.lock = threading.RLock()

    def asked(self):
        return self.same + sum(self.named.values()) + self.others

    def add(self, same, name, registers, sample):
        """One case of a file; `name` is the difference's, or None where it has none, and `sample` shows it."""
        with self.lock:
            if same:
                self.same += 1
            elif name:
                self.named[name] += 1
            else:
                self.others += 1
                if len(self.samples) < SAMPLES:
                    self.samples.setdefault(registers.text(), sample())

    def add_answer(self, registers, words, ours, wanted):
        """What the program wrote for these words, and its status, beside what the definitions have."""
        self.add(ours == wanted, None, registers, lambda: f"{words}: the program: {ours}; the definitions: {wanted}")


def shown(kind):
    return {UNDEFINED: "undefined", NO_TYPE: "none", ASSERTS: "asserts", REFUSES: "refuses the file"}.get(kind, NAMES.get(kind, f"{kind}"))


def joined(kinds, clash, is_uc_late=False):
    """The type when a judge goes through the types of the ranges that hold a page: `clash` where two don't go together. A judge
    that is late with UC has a clash too where a type follows UC."""
    first, *rest = kinds
    for kind in rest:
        if kind == first:
            continue
        if UC in (first, kind):
            return clash if is_uc_late and first == UC else UC
        if {first, kind} != {WT, WB}:
            return clash
        first = WT
    return first


class Page:
    """A page of a file, with the types of the pairs that match it in their order."""

    def __init__(self, answers, page):
        self.answers, self.page, self.registers = answers, page, answers.registers
        self.is_off = not self.registers.def_type & E
        self.is_by_ranges = not self.is_off and not self.registers.is_fixed(page)
        self.kinds = self.kinds_of(lambda one: one.matches(page))

    def kinds_of(self, holds, ranges=None):
        return [one.kind for one in ranges or self.answers.ranges if holds(one)]

    @cached_property
    def is_undefined(self):
        return self.is_by_ranges and bool(self.kinds) and self.answers.reading.meeting(self.kinds)[1] is UNDEFINED

    def by_kvm(self, begin):
        """KVM's type, where a range holds the pages from `begin` of it to its last: down from the highest base register."""
        ranges = sorted(reversed(self.answers.ranges), key=lambda one: (-one.base, -one.kind))
        kinds = self.kinds_of(lambda one: begin(one) <= self.page <= one.last, ranges)
        return joined(kinds, WB, is_uc_late=True) if kinds else self.registers.def_type & 0xFF

    def by_edk2(self, begin):
        """EDK2's type, where a range holds as many pages as its mask says, from `begin` of it on."""
        kinds = self.kinds_of(lambda one: begin(one) <= self.page <= begin(one) + one.last - one.first)
        return joined(kinds, ASSERTS) if kinds else self.registers.def_type & 0xFF


def first_of(one):
    return one.first


def base_of(one):
    return one.base


def linux_type(page, ours, theirs):
    if page.is_off:
        return "off has no type" if ours == UC and theirs == NO_TYPE else None
    return "undefined is UC" if ours is UNDEFINED and page.is_undefined and theirs == UC else None


def kvm_type(page, ours, theirs):
    if not page.is_by_ranges:
        return None
    if theirs == page.by_kvm(first_of):
        if ours is UNDEFINED and page.is_undefined and theirs == WB:
            return "undefined is WB"
        if ours == UC and UC in page.kinds and theirs == WB:
            return "WB in place of UC"
    return "a range is cut at its base" if theirs == page.by_kvm(base_of) != page.by_kvm(first_of) else None


def xen_type(page, ours, theirs):
    return "undefined is the last one's" if ours is UNDEFINED and page.is_undefined and theirs == page.kinds[-1] else None


def edk2_type(page, ours, theirs):
    if not (page.registers.cap & FIX and page.registers.cap & 0xFF):
        return "UC without fixed ranges or pairs" if theirs == UC else None
    if not page.is_by_ranges:
        return None
    if theirs == page.by_edk2(first_of) == ASSERTS:
        if ours is UNDEFINED and page.is_undefined:
            return "undefined asserts"
        if ours == UC and UC in page.kinds:
            return "asserts beside UC"
    return "a range is moved to its base" if theirs == page.by_edk2(base_of) != page.by_edk2(first_of) else None


TYPE_NAMES = {"linux": linux_type, "kvm": kvm_type, "xen": xen_type, "edk2": edk2_type}


def compare_types(tally, answers, pages, ours, theirs):
    """Each page's type by the program, or by the reading where it refuses the file, beside the judge's."""
    for page, own, other in zip(pages, ours, theirs):
        if own == other:
            tally.same += 1
            continue
        at = Page(answers, page)
        tally.add(False, TYPE_NAMES[tally.judge](at, own, other), answers.registers, lambda: (
            f"page {page:x}: ours {shown(own)}, {tally.judge} {shown(other)}; "
            f"ranges that match it: {' '.join(NAMES.get(kind, '?') for kind in at.kinds) or 'none'}"))


def allowed_name(registers, number, value, reason, theirs):
    """The name of a difference on a register's value, which the program refuses for this reason, or allows."""
    if reason is None or not theirs:
        return None
    if reason == BROKEN:
        is_mask = number < 0x250 and number % 2 == 1 and value & VALID
        return "mask with a gap" if is_mask and Range(0, value, registers.width).has_gap else None
    kinds = parts_of(value) if number in FIXED else [value & 0xFF]
    if reason == UNSUPPORTED and number != PAT and not registers.cap & CAP_WC and WC in kinds and all(kind in MEMORY_TYPES for kind in kinds):
        return "WC without its bit"
    if reason == RESERVED and number == DEF_TYPE and not registers.cap & FIX and value & FE and not (value >> 12 or value & 0x300):
        return "FE without FIX"
    return None


def compare_allowed(tally, registers, fault, theirs):
    """Each register up to the first at fault by itself."""
    for (number, value), said in zip(registers.writable(), theirs):
        reason = fault[1] if fault and fault[0] == number and fault[1] != OVERLAP else None
        same = (reason is None) == (said == "y")
        tally.add(same, None if same else allowed_name(registers, number, value, reason, said == "y"), registers, lambda: (
            f"register {number:03x}: ours {reason or 'allowed'}, {tally.judge} {'allows' if said == 'y' else 'refuses'} it"))
        if reason:
            return


def effective_name(judge, kind, entry, ours, theirs):
    is_asked_less = judge == "linux" and entry == WB and kind in (WT, WP)
    if is_asked_less and theirs == EFFECTIVE[kind][COLUMNS.index(UC_MINUS)] and ours == EFFECTIVE[kind][COLUMNS.index(WB)]:
        return "WB over WT or WP is asked as UC-"
    return None
