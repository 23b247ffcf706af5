"""Wrong answers, each put in the place of the program's own. `tools/peers/run -x all` shows which of them the table names."""
import re
from collections import namedtuple

from dumps import dump_of
from pairs import MOST, USUAL
from program import Program
from second_reading import E, FE, FIX, NAMES, OVERLAP, UC, UNDEFINED, VALID, Reading, largest_overlap

# What the program was asked, and wrote with which status; `ask` asks it of the same file with other words.
Answer = namedtuple("Answer", "ask words registers text status")
ACCEPTED = "accepted\n", 0


class Wrong(Program):
    """The program with one of these plants."""

    def __init__(self, program, name):
        super().__init__(program.path, program.explain_path)
        self.program = program
        self.command, _, self.change = PLANTS[name]

    def ask(self, words, registers):
        text, status = self.program.ask(words, registers)
        if words[0] != self.command:
            return text, status
        return self.change(Answer(lambda *other: self.program.ask(list(other), registers), words, registers, text, status)) or (text, status)

    def run(self, words, data):
        return self.program.run(words, data)

    def explain(self, words, files):
        said = self.program.explain(words, files)
        for one in said if self.command == f"explain {words[0]}" else ():
            self.change(one)
        return said


def swapped(old, new):
    """The same answer with these words in the place of others."""
    return lambda at: (re.sub(old, new, at.text, flags=re.M), at.status)


def last_pair(at):
    last = max((place for place, (_, mask) in enumerate(at.registers.pairs) if mask & VALID), default=0)
    return (f"refused {0x200 + 2 * last:03x} {OVERLAP}\n", 1) if OVERLAP in at.text else None


def accepts_fe(at):
    is_fe = "2ff reserved bit" in at.text and not at.registers.cap & FIX and at.registers.def_type & FE
    return ACCEPTED if is_fe else None


def shows_lawful_ones(at):
    answers = Reading().of(at.registers)
    return answers.check() if answers.fault else None


def late_edge(at):
    found = re.match(r"(\w+)-(\w+) (\S+)\n\w+-(.*\n)", at.text, re.S)
    if not found:
        return None
    end = int(found[2], 16) + 0x1000
    return f"{found[1]}-{end:013x} {found[3]}\n{end + 1:013x}-{found[4]}", at.status


def typed_when_off(at):
    kind = NAMES.get(at.registers.def_type & 0xFF)
    return (at.text.replace(" UC", f" {kind}"), 0) if at.status == 0 and not at.registers.def_type & E else None


def cut_in_two(at):
    half = at.registers.pages() << 11
    found = re.fullmatch(r"(\w+)-(\w+) (\S+)\n", at.text) if at.status == 0 else None
    return (f"{found[1]}-{half - 1:013x} {found[3]}\n{half:013x}-{found[2]} {found[3]}\n", 0) if found else None


def typed_overlap(at):
    if OVERLAP not in at.text:
        return None
    answers = Reading().of(at.registers)
    answers.fault, answers.pieces = None, [(first, UC if kind is UNDEFINED else kind) for first, kind in answers.pieces]
    return answers.types()


def next_page(at):
    address = int(at.words[1], 16) + 0x1000
    found = re.search(r"mtrr \S+", at.ask("page", f"{address:x}", at.words[2])[0])
    return swapped(r"mtrr \S+", found[0])(at) if found else None


def page_of_overlap(at):
    return (f"page {int(at.words[1], 16) & ~0xFFF:013x} mtrr UC pat UC effective UC\n", 0) if OVERLAP in at.text else None


def used(at):
    return int(at.text.split()[2]) if at.status == 0 else 0


def chunk_of(at):
    return int(at.words[2].partition("=")[2], 16) if len(at.words) == 3 else USUAL


def retold(change, more=0):
    """The tidied file with so many pairs more told, and its registers changed, by how many pairs are valid."""
    def retell(at):
        count = used(at)
        if count == 0 or count == 32:
            return None
        tidied = next(dump_of(at.text.encode()).files())
        change(tidied, count)
        return f"# used {count + more}\n{tidied.canonical()}", 0
    return retell


def same_pairs(at):
    count = sum(1 for _, mask in at.registers.pairs if mask & VALID)
    keeps = at.status == 0 and largest_overlap(at.registers) <= chunk_of(at)
    return (f"# used {count}\n{at.registers.canonical()}", 0) if keeps else None


def without_last_pair(said):
    said["pairs"] = said["pairs"][:-1]


def called_one_type(said):
    said["rule"] = said["rule"].replace("wt-over-wb", "one-type")


def called_uc(said):
    said["type"] = said["type"].replace("undefined", "UC")


def first_entry_last(said):
    for entry in said["effective"][-1:]:
        entry["effective"] = said["effective"][0]["effective"]


def first_register(said):
    said["faults"] = [fault for fault in said["faults"] if fault["register"] == said["faults"][0]["register"]]


def short_runs(said):
    for run in said["undefined"]:
        run["last"] = f"{int(run['last'], 16) - 0x1000:013x}"


# By name: the command, what is wrong with its answer, and a function of the answer: the wrong one, or None for the same.
PLANTS = {
    "check-gap": ("check", "a mask with a gap is accepted", lambda at: ACCEPTED if "broken mask" in at.text else None),
    "check-reason": ("check", "a reserved bit is called an unsupported type", swapped("reserved bit", "unsupported type")),
    "check-status": ("check", "a refused file ends with status 0", lambda at: (at.text, 0)),
    "check-overlap": ("check", "an undefined overlap is accepted", lambda at: ACCEPTED if OVERLAP in at.text else None),
    "check-pair": ("check", "an undefined overlap is at the last valid pair", last_pair),
    "check-fe": ("check", "FE without fixed ranges is accepted", accepts_fe),
    "show-refuses": ("show", "a file that check refuses is refused", shows_lawful_ones),
    "show-pat": ("show", "the PAT is left out", swapped("^277 .*\n", "")),
    "show-base": ("show", "bits 11:8 of bases are cleared", swapped(r"^(2[0-3][02468ace] \w{13}).", r"\g<1>0")),
    "types-last": ("types", "the last run is left out", swapped(r"^\w+-\w+ \S+\n\Z", "")),
    "types-edge": ("types", "the first run ends a page later", late_edge),
    "types-wp": ("types", "WP is WT", swapped(" WP", " WT")),
    "types-off": ("types", "with the MTRRs off pages have the default type", typed_when_off),
    "types-split": ("types", "a run of all pages is written as two", cut_in_two),
    "types-undefined": ("types", "an undefined overlap is UC", typed_overlap),
    "page-next": ("page", "the MTRR type is that of the next page", next_page),
    "page-entry": ("page", "the PAT entry is that of the index without its bit 2", lambda at: at.ask(*at.words[:2], str(int(at.words[2]) & 3))),
    "page-effective": ("page", "the type in effect is UC for UC- over WP", swapped("(mtrr WP pat UC- effective) WC", r"\1 UC")),
    "page-address": ("page", "the address isn't rounded to its page", lambda at: swapped(r"^page \w+", f"page {int(at.words[1], 16):013x}")(at)),
    "page-outside": ("page", "a page outside has type UC", swapped("outside", "mtrr UC pat UC effective UC")),
    "page-overlap": ("page", "a file with an undefined overlap is answered", page_of_overlap),
    "tidy-number": ("tidy", "the number is one less", retold(lambda tidied, count: None, -1)),
    "tidy-drops": ("tidy", "the last pair is left out", retold(lambda tidied, count: tidied.pairs.__setitem__(count - 1, (0, 0)), -1)),
    "tidy-more": ("tidy", "the first pair stands twice", retold(lambda tidied, count: tidied.pairs.__setitem__(count, tidied.pairs[0]), 1)),
    "tidy-pat": ("tidy", "the PAT becomes 0", retold(lambda tidied, count: tidied.put(0x277, 0))),
    "tidy-chunk": ("tidy", "the chunk counts for nothing", lambda at: at.ask("tidy", "spare=0", f"chunk={MOST:x}")),
    "tidy-half": ("tidy", "overlaps of the whole chunk are refused", lambda at: at.ask("tidy", "spare=0", f"chunk={chunk_of(at) // 2:x}")),
    "tidy-few": ("tidy", "too few pairs, where they suffice", lambda at: (f"too few needs {used(at)} has 32\n", 8) if at.status == 0 else None),
    "tidy-needs": ("tidy", "where pairs are too few, 33 are needed", swapped(r"needs \d+", "needs 33")),
    "tidy-spare": ("tidy", "the pair that is to stay free counts too", lambda at: at.ask("tidy", "spare=0", f"chunk={chunk_of(at):x}")),
    "tidy-same": ("tidy", "the pairs stay as they were where they keep to the chunk", same_pairs),
    "tidy-off": ("tidy", "a file whose MTRRs are off is tidied", lambda at: (f"# used 0\n{at.registers.canonical()}", 0) if at.status == 9 else None),
    "explain-undefined": ("explain page", "a page with no defined type is UC", called_uc),
    "explain-pair": ("explain page", "the last pair that matches is left out", without_last_pair),
    "explain-rule": ("explain page", "WT over WB is said to be of one type", called_one_type),
    "explain-effective": ("explain page", "the PAT's last entry has the first one's type in effect", first_entry_last),
    "explain-first": ("explain faults", "the first register at fault alone is told", first_register),
    "explain-short": ("explain faults", "an undefined run is a page short", short_runs),
}
