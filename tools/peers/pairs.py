"""What is compared of least lists of pairs. docs/PEERS.md has the cause of each difference."""
import re
from collections import Counter

from differences import Tally
from dumps import dump_of
from second_reading import UC, VALID, WC, largest_overlap
from solver import Solver

MOST, USUAL = 1 << 52, 1 << 28  # chunks: the largest, and the default of `tidy`
SAME_MAP = "same"


def words_for(chunk):
    """The words for this chunk: none for the default, which leaves one pair free, else with all pairs to use."""
    return ["tidy"] if chunk == USUAL else ["tidy", "spare=0", f"chunk={chunk:x}"]


def misfit(answers, chunk, room, count, text):
    """What is wrong with a tidied file of so many pairs that `mtrr tidy` wrote for a map, or None."""
    dump = dump_of(text.encode())
    if dump is None or text != f"# used {count}\n{dump.canonical()}":
        return "no canonical text"
    before, tidied = answers.registers, answers.reading.of(next(dump.files()))
    after = tidied.registers
    if count != len(tidied.ranges) or count > room:
        return f"{len(tidied.ranges)} valid pairs, and {room} may be used"
    if (before.width, before.cap, before.fixed, before.pat, before.def_type) != (after.width, after.cap, after.fixed, after.pat, after.def_type):
        return "another register than a pair's has changed"
    if any(pair != (0, 0) for pair in after.pairs if not pair[1] & VALID):
        return "a pair that isn't valid isn't 0"
    if tidied.fault or tidied.runs != answers.runs:
        return "other types"
    return "an overlap beyond the chunk" if largest_overlap(after) > chunk else None


class Least:
    """The program's least numbers of pairs for a map, by chunk, each asked once and its pairs read back."""

    def __init__(self, program, answers, tally):
        self.program, self.answers, self.tally = program, answers, tally
        self.known = {}

    def at(self, chunk):
        """The number, or None where the answer is wrong."""
        if chunk not in self.known:
            words = words_for(chunk)
            text, status = self.program.ask(words, self.answers.registers)
            number, why = self.read(chunk, text, status)
            self.tally.add(why is None, None, self.answers.registers, lambda: f"{words}: {why}:\n{text}")
            self.known[chunk] = number
        return self.known[chunk]

    def read(self, chunk, text, status):
        """The number, and what is wrong with the answer."""
        room = len(self.answers.registers.pairs) - (1 if chunk == USUAL else 0)
        found = re.match(r"# used (\d+)\n" if status == 0 else r"too few needs (\d+) has (\d+)\n$", text)
        if not found or status not in (0, 8):
            return None, f"no number, status {status}"
        number = int(found.group(1))
        if status == 8 and (int(found.group(2)) != room or number <= room):
            return None, f"{room} may be used"
        least = Solver(self.answers, chunk).number()
        if number != least:
            return None, f"{least} is the least number"
        why = misfit(self.answers, chunk, room, number, text) if status == 0 else None
        return (number, None) if why is None else (None, why)


def without_wc(runs):
    """The same runs with UC in place of WC."""
    joined = []
    for first, kind in runs:
        kind = UC if kind == WC else kind
        if not joined or joined[-1][1] != kind:
            joined.append((first, kind))
    return joined


def between(runs, begin, end=1 << 40):
    """The runs from page `begin` up to page `end`."""
    before = [kind for first, kind in runs if first <= begin]
    return [(begin, before[-1])] + [(first, kind) for first, kind in runs if begin < first < end]


def other_map_name(judge, wanted, given, default):
    """Whether pairs give the types that were wanted beyond the first megabyte, or the name of what they do instead, or None."""
    if between(wanted, 256) == between(given, 256):
        return SAME_MAP
    ends = [first for first, _ in wanted[1:]]
    described = max([1 << 20] + [end for (_, kind), end in zip(wanted, ends) if kind != UC])
    if judge != "coreboot":
        return None
    known, above = between(given, 256, described), between(given, described)
    if {kind for _, kind in above} - {default, known[-1][1]}:
        return None
    if between(wanted, 256, described) == known:
        return "another type above all memory"
    if between(without_wc(wanted), 256, described) == known:
        return "WC given up"
    return None


class PairsTally(Tally):
    """How many pairs a judge took for a map, beside our least for the types that its pairs give."""

    def __init__(self, judge):
        super().__init__(judge, "pairs")
        self.none = Counter()
        self.more = Counter()
        self.beside_default = Counter()

    def add_pairs(self, name, theirs, ours, sample):
        """An answer's pairs, beside our least for the same types: none fewer than at a chunk that bounds its own overlaps."""
        count, bound = sum(1 for _, mask in theirs.pairs if mask & VALID), largest_overlap(theirs)
        least = {chunk: ours.at(chunk) for chunk in (MOST, USUAL, bound)}
        if None in least.values():
            why = "ours tells no number"
        elif any(count < number for chunk, number in least.items() if bound <= chunk):
            why = f"{count} pairs with overlaps of up to {bound:x} bytes, and ours by chunk {least}"
        else:
            why = None if name else "other types"
        self.add(why is None and name == SAME_MAP, None if why else name, ours.answers.registers, lambda: f"{why}; its answer\n{sample()}")
        if why is None:
            with self.lock:
                self.more[count - least[MOST]] += 1
                self.beside_default[count - least[USUAL]] += 1
