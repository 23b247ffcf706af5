"""The whole comparison: the files, the questions, the table."""
import bisect
import random
import re
import subprocess
from collections import Counter
from concurrent.futures import ThreadPoolExecutor

from differences import Tally, compare_allowed, compare_types, effective_name, shown
from draw import Draw, hard_maps, pages_of, value_of
from dumps import dump_of
from explanations import explained, faults_explained, faults_wanted, page_explained, page_wanted
from pairs import MOST, SAME_MAP, USUAL, Least, PairsTally, other_map_name, words_for
from program import runs_of
from roster import JUDGES
from row_files import all_files, rows_of
from second_reading import BYTES, COLUMNS, E, FE, FIX, MEMORY_TYPES, NAMES, OVERLAP, VALID, Registers

BATCH = 500
PARTS = ("texts", "files", "effective", "pairs")
READ_ONE = (b"check", b"show", b"types", b"page", b"tidy", b"gran")


def answers_of(path, lines):
    """A judge's answers to these questions."""
    if not lines:
        return []
    ran = subprocess.run([path], input="\n".join(lines) + "\n", capture_output=True, text=True)
    said = ran.stdout.splitlines()
    if ran.returncode != 0 or len(said) != len(lines):
        raise RuntimeError(f"{path}: status {ran.returncode}, {len(said)} answers to {len(lines)} questions\n{ran.stderr}")
    return said


def example_texts(top):
    """The dumps of examples/, and the inputs of the rows that read one."""
    yield from (path.read_bytes() for path in sorted(top.glob("examples/*.dump")))
    for file in all_files():
        for row in rows_of(file):
            if row.words[:1] and row.words[0] in READ_ONE:
                yield row.input


def type_from(text):
    """The types that `mtrr types` wrote, as a function of the page: -1 where it has none."""
    runs = [(-1, -1), *runs_of(text)]
    firsts = [first for first, _ in runs]
    return lambda page: runs[bisect.bisect_right(firsts, page) - 1][1]


def map_line(answers, runs):
    """The question for pairs that give these runs."""
    return f"pairs {answers.registers.line()} ; {' '.join(f'{first:x} {kind:x}' for first, kind in runs)}"


class Files:
    """Distinct register files, each with its kind."""

    def __init__(self):
        self.seen = set()
        self.list = []
        self.kinds = Counter()

    def add(self, kind, registers):
        if registers.key() not in self.seen:
            self.seen.add(registers.key())
            self.list.append(registers)
            self.kinds[kind] += 1

    def draw(self, kinds, draw, count):
        """So many new ones, of these kinds in turn; a kind that has no new one for long is left."""
        goal, turn, tries = len(self.list) + count, 0, 0
        while len(self.list) < goal and tries < 20 * count:
            name, make = kinds[turn % len(kinds)]
            self.add(name, make(draw))
            turn, tries = turn + 1, tries + 1

    def batches(self):
        return (self.list[start:start + BATCH] for start in range(0, len(self.list), BATCH))


class Cases:
    """What is asked about: texts, files and maps, all distinct."""

    def __init__(self, top, count, map_count, seed):
        draw = Draw(seed)
        self.seed, self.texts = seed, list(dict.fromkeys(example_texts(top)))
        self.files, self.maps = Files(), Files()
        for registers in hard_maps(draw):
            self.files.add("hard maps", registers)
        for dump in filter(None, map(dump_of, self.texts)):
            for registers in dump.files():
                self.files.add("examples and rows", registers)
        if map_count:
            self.add_given_maps(draw)
            self.maps.draw(Draw.MAPS, draw, map_count)
        self.files.draw(Draw.FILES, draw, count)

    def add_given_maps(self, draw):
        """The pairs of the given files where the ranges are on, over fixed ranges that are WB."""
        for registers in self.files.list:
            if registers.def_type & E and registers.cap & FIX:
                valid = [pair for pair in registers.pairs if pair[1] & VALID]
                self.maps.add("given files", draw.map_of(registers.width, valid, registers.def_type & 0xFF))


class Judges:
    """The compiled judges, and the versions of their sources."""

    def __init__(self, apt):
        self.paths = {one.name: one.built(apt) for one in JUDGES}
        self.versions = apt.used

    def ask(self, name, lines):
        return answers_of(self.paths[name], lines)


class Comparison:
    def __init__(self, judges, program, cases):
        self.judges, self.program, self.cases = judges, program, cases
        self.reading = program.reading
        self.tallies = []
        self.refused, self.refused_maps = Counter(), Counter()
        self.mapped, self.pages, self.accepted_maps = 0, 0, 0
        self.of_pairs = []

    def tally(self, judge, what):
        self.tallies.append(Tally(judge, what))
        return self.tallies[-1]

    def run(self, parts=PARTS):
        """Compares these parts, in their order."""
        with ThreadPoolExecutor() as self.pool:
            for part in parts:
                getattr(self, f"compare_{part}")()
        return self

    def compare_texts(self):
        """Which texts are dumps, and what they show."""
        tally = self.tally("definitions", "show, of texts")
        for text, (said, status) in zip(self.cases.texts, self.pool.map(lambda text: self.program.run(["show"], text), self.cases.texts)):
            dump = dump_of(text)
            same = (said, status) == (dump.canonical(), 0) if dump else status == 3 and said.startswith("bad text ")
            tally.add(same, None, Registers(), lambda: f"status {status}:\n{said}of\n{text.decode('latin-1')}")

    # Types and registers.

    def compare_files(self):
        self.of_commands = {name: self.tally("definitions", name) for name in ("check", "show", "types", "page")}
        self.of_commands["tidy"] = self.tally("definitions", "tidy, refused or off")
        self.of_explanations = [self.tally("definitions", f"explain {name}") for name in ("faults", "page")]
        self.of_types = [self.tally(judge, "types") for judge in ("linux", "kvm", "xen", "edk2")]
        self.of_registers = [self.tally(judge, "registers") for judge in ("kvm", "xen")]
        pick = random.Random(self.cases.seed)
        for files in self.cases.files.batches():
            self.compare_batch(files, pick)

    def compare_batch(self, files, pick):
        asked = [(self.reading.of(registers), pages_of(registers, pick), pick.getrandbits(32)) for registers in files]
        told = list(self.pool.map(lambda one: self.ask_two(*one), asked))
        for (answers, _, _), said in zip(asked, told):
            for words, ours in said:
                self.of_commands[words[0]].add_answer(answers.registers, words, ours, answers.to(words))
        types = [said[0][1] for said in told]
        faults = [self.fault_of(text, status) for text, status in types]
        for tally in self.of_registers:
            said = self.judges.ask(tally.judge, ["allows " + registers.line() for registers in files])
            for registers, fault, line in zip(files, faults, said):
                compare_allowed(tally, registers, fault, line)
        if self.program.explain_path:
            self.compare_explanations(asked)
        self.compare_mapped([(answers, pages, fault, text) for (answers, pages, _), fault, (text, _) in zip(asked, faults, types)])

    def ask_two(self, answers, pages, number):
        """What the program says of a file, by `types` and by another command in turn: the words, and the text and status."""
        page = pages[number % len(pages)] if number % 16 else answers.registers.pages() << number // 16 % 4
        address = min(page, (1 << 40) - 1) << 12 | number >> 20
        turns = [["check"], ["show"], ["page", f"{address:x}", str(number // 64 % 8)]]
        if answers.fault or not answers.registers.def_type & E:
            turns.append(["tidy"])
        return [(words, self.program.ask(words, answers.registers)) for words in (["types"], turns[number // 512 % len(turns)])]

    def fault_of(self, text, status):
        """The program's first fault, as the register's number and the reason, or None."""
        found = re.fullmatch(r"refused ([0-9a-f]{3}) (.*)\n", text)
        self.refused["accepted" if status == 0 else found.group(2) if found else "an answer of no known form"] += 1
        if status == 0:
            return None
        return (int(found.group(1), 16), found.group(2)) if found else (0, text)

    def compare_mapped(self, told):
        """Types of pages: by the program, or where it refuses a file for an overlap alone by the reading."""
        mapped = []
        for answers, pages, fault, text in told:
            if fault is None or fault[1] == OVERLAP:
                mapped.append((answers, pages, list(map(answers.type_at if fault else type_from(text), pages))))
        self.mapped += len(mapped)
        self.pages += sum(len(pages) for _, pages, _ in mapped)
        lines = [f"types {answers.registers.line()} ; {' '.join(f'{page:x}' for page in pages)}" for answers, pages, _ in mapped]
        for tally in self.of_types:
            for (answers, pages, ours), line in zip(mapped, self.judges.ask(tally.judge, lines)):
                compare_types(tally, answers, pages, ours, bytes.fromhex(line))

    # Explanations.

    def compare_explanations(self, asked):
        of_faults, of_pages = self.of_explanations
        for (answers, _, _), said in zip(asked, self.program.explain(["faults"], [answers.registers for answers, _, _ in asked])):
            of_faults.add_answer(answers.registers, ["faults"], explained(faults_explained, said), faults_wanted(answers))
        clashing = [(answers, pages[number // 2 % len(pages)] if number % 2 else answers.holes[number // 2 % len(answers.holes)][number // 512 % 2])
                    for answers, pages, number in asked if answers.fault and answers.fault[1] == OVERLAP]
        said = self.pool.map(lambda one: self.program.explain(["page", f"{one[1] << 12:x}"], [one[0].registers])[0], clashing)
        for (answers, page), one in zip(clashing, said):
            of_pages.add_answer(answers.registers, ["page", f"{page << 12:x}"], explained(page_explained, one), page_wanted(answers, page))

    # Effective types.

    def compare_effective(self):
        fixed = [value_of([*MEMORY_TYPES, 0, 0, 0])] + [0] * 10
        pat = value_of([*COLUMNS, 0, 0])
        registers = Registers(36, 0x508, [], fixed, pat, E | FE)
        cells = [(16 * row, kind, index, entry) for row, kind in enumerate(MEMORY_TYPES) for index, entry in enumerate(COLUMNS)]
        ours = [self.effective_by_program(registers, page, index) for page, _, index, _ in cells]
        for judge in ("xen", "linux"):
            tally = self.tally(judge, "effective types")
            said = self.judges.ask(judge, [f"effective {kind:x} {entry:x}" for _, kind, _, entry in cells])
            for (_, kind, _, entry), own, line in zip(cells, ours, said):
                other = int(line, 16)
                if judge == "linux":
                    other = self.reading.effective(kind, other)
                tally.add(own == other, effective_name(judge, kind, entry, own, other), registers, lambda: (
                    f"MTRR {NAMES[kind]}, PAT {NAMES[entry]}: ours {shown(own)}, {judge} {shown(other)}"))

    def effective_by_program(self, registers, page, index):
        """The type in effect that the program's last word names, or -1."""
        text, _ = self.program.ask(["page", f"{page << 12:x}", f"{index}"], registers)
        return BYTES.get(text.rstrip("\n").rpartition(" ")[2], -1)

    # Pairs.

    def compare_pairs(self):
        if not self.cases.maps.list:
            return
        self.of_tidied = self.tally("definitions", "tidy")
        self.of_pairs = [PairsTally(judge) for judge in ("linux", "edk2", "coreboot")]
        self.tallies += self.of_pairs
        for files in self.cases.maps.batches():
            self.compare_pairs_of([self.reading.of(registers) for registers in files])

    def compare_pairs_of(self, maps):
        lawful = [Least(self.program, answers, self.of_tidied) for answers in maps if not answers.fault]
        self.accepted_maps += len(lawful)
        list(self.pool.map(lambda ours: (ours.at(MOST), ours.at(USUAL)), lawful))
        for tally in self.of_pairs:
            said = self.judges.ask(tally.judge, [map_line(ours.answers, ours.answers.runs) for ours in lawful])
            list(self.pool.map(lambda one: self.compare_pairs_by(tally, *one), zip(lawful, said)))
        self.compare_refused_maps([answers for answers in maps if answers.fault])

    def compare_pairs_by(self, tally, ours, line):
        if line.startswith("none "):
            with tally.lock:
                tally.none[line[5:]] += 1
            return
        of = ours.answers.registers
        default, *words = [int(word, 16) for word in line.split()]
        theirs = Registers(of.width, of.cap, list(zip(words[::2], words[1::2])), of.fixed, of.pat, default | E | FE)
        read = self.reading.of(theirs)
        name = other_map_name(tally.judge, ours.answers.runs, read.runs, default)
        if name != SAME_MAP or default != of.def_type & 0xFF:
            ours = Least(self.program, read, self.of_tidied)
        tally.add_pairs(name, theirs, ours, theirs.text)

    def compare_refused_maps(self, maps):
        """Maps that ours refuses, which no judge can be held to: why, and whether Linux's cleanup, which alone reads registers, answers."""
        said = self.judges.ask("linux", [map_line(answers, []) for answers in maps])
        for answers, line in zip(maps, said):
            words = words_for(MOST)
            self.of_tidied.add_answer(answers.registers, words, self.program.ask(words, answers.registers), answers.tidy())
            self.refused_maps[answers.fault[1], line[5:] if line.startswith("none ") else "an answer"] += 1
