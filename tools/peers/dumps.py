"""The text of dumps, by docs/FORMATS.md, "Dump text"; which fault a bad text has isn't looked at."""
import re

from second_reading import CAP, Registers

WIDTH = "maxphyaddr"


class NoDump(Exception):
    """The text isn't one of a dump."""


def want(is_so):
    if not is_so:
        raise NoDump


def words_of(text):
    """The words of each line that has any."""
    for line in text.split(b"\n"):
        want(len(line) <= 4096)
        words = [word.decode("latin-1") for word in re.split(rb"[ \t]+", line.removesuffix(b"\r").split(b"#")[0]) if word]
        if words:
            yield words


def number_of(word, is_decimal=False):
    found = re.fullmatch("()([0-9]{1,20})" if is_decimal else "(0[xX])?([0-9a-fA-F]{1,16})", word)
    want(found)
    return int(found.group(2), 10 if is_decimal else 16)


class Dump:
    """The sections of a dump: what each gives, by the register's number or the word for the width."""

    def __init__(self, text):
        self.version, self.sections = None, []
        for words in words_of(text):
            want(len(words) == 2)
            self.line(words[0].removesuffix(":"), words[1])
        want(self.sections and CAP in self.sections[0])

    def line(self, name, value):
        if name == "version":
            want(self.version is None)
            self.version = number_of(value, True)
            want(self.version in (1, 2))
        elif name == "cpu":
            want(self.version == 2 and number_of(value, True) == len(self.sections) < 16)
            want(not self.sections or CAP in self.sections[0])
            self.sections.append({})
        else:
            self.version = self.version or 1
            if self.version == 1 and not self.sections:
                self.sections.append({})
            want(self.sections)
            is_width = name == WIDTH
            self.give(WIDTH if is_width else number_of(name), number_of(value, is_width))

    def give(self, key, value):
        first, last = self.sections[0], self.sections[-1]
        want(key not in last)
        if key == WIDTH:
            want(32 <= value <= 52)
        elif key == CAP:
            want(value & 0xFF <= 32)
        else:
            want(CAP in first and key in dict(Registers(cap=first[CAP]).writable()))
        if key in (WIDTH, CAP) and last is not first:
            want(value == first.get(key, 36))
        last[key] = value

    def files(self):
        """The registers of each processor."""
        first = self.sections[0]
        for section in self.sections:
            registers = Registers(first.get(WIDTH, 36), first[CAP], def_type=0)
            for number, value in section.items():
                if number not in (WIDTH, CAP):
                    registers.put(number, value)
            yield registers

    def canonical(self):
        texts = [registers.canonical() for registers in self.files()]
        if self.version == 1:
            return texts[0]
        return "version 2\n" + "".join(f"cpu {number}\n{text}" for number, text in enumerate(texts))


def dump_of(text):
    """The dump that a text shows, or None."""
    try:
        return Dump(text)
    except NoDump:
        return None
