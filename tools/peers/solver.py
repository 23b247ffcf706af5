"""The least number of pairs for the types of a map, found once more: by going through blocks, with the types that lie over each."""
import bisect
import functools

from second_reading import UC, WB, WT

NEVER = 1 << 20


def can_become(over, kind):
    """Whether pairs of more types can give pages this type where these types lie over them."""
    return kind == UC or over <= ({WT, WB} if kind == WT else {kind})


class Solver:
    """For one file's types and one chunk, in bytes."""

    def __init__(self, answers, chunk):
        self.meeting, self.default = answers.reading.meeting, answers.registers.def_type & 0xFF
        self.width, self.chunk = answers.registers.width, chunk
        # The fixed ranges give the first megabyte its types, so pairs may do there what they like.
        self.begin = 256 if answers.registers.is_fixed(0) else 0
        self.firsts = [first for first, _ in answers.runs]
        self.kinds = [kind for _, kind in answers.runs]
        self.least = functools.cache(self.least)

    def number(self):
        return self.least(0, self.width - 12, frozenset())

    def kinds_in(self, first, log):
        """The types that the pages of a block want."""
        begin, last = max(first, self.begin), first + (1 << log) - 1
        if begin > last:
            return frozenset()
        return frozenset(self.kinds[bisect.bisect_right(self.firsts, begin) - 1:bisect.bisect_right(self.firsts, last)])

    def gives(self, over, kinds):
        """Whether all these types, one at most, come of the types that lie over a block."""
        kind = self.meeting(over)[1] if over else self.default
        return not kinds or kinds == {kind}

    def least(self, first, log, over):
        """The least number of pairs within a block of 2^log pages, where pairs of the types `over` lie over all of it."""
        kinds = self.kinds_in(first, log)
        if 4096 << log > self.chunk:  # no other pair may share a page with one of this size
            if len(kinds) <= 1:
                return 0 if self.gives(over, kinds) else 1
            return self.halves(first, log, over)
        sets = [over]
        for kind in kinds:  # a pair of a type that no page here wants may as well be left out
            sets += [one | {kind} for one in sets if kind not in one and all(can_become(one | {kind}, want) for want in kinds)]
        return min(self.below(first, log, one, kinds) + len(one) - len(over) for one in sets)

    def below(self, first, log, over, kinds):
        if len(kinds) <= 1:
            return 0 if self.gives(over, kinds) else NEVER
        return self.halves(first, log, over)

    def halves(self, first, log, over):
        return self.least(first, log - 1, over) + self.least(first + (1 << log - 1), log - 1, over)
