"""Reads the rows of examples/rows, whose format docs/FORMATS.md describes."""
import glob
import os
import re
import sys

TOP = os.path.dirname(os.path.dirname(os.path.abspath(__file__)))
ROWS = os.path.join(TOP, "examples", "rows")
ESCAPE = re.compile(rb"\\(?:x([0-9a-f]{2})|(.?))", re.DOTALL)
PLAIN = {b"\\": b"\\", b"t": b"\t", b"r": b"\r"}

# The crate of each program, which is the name of its folder of rows: those of mtrr have none.
CRATES = {"mtrr": "mtrr", "mtrr-import": "mtrr_import", "mtrr-map": "mtrr_map", "mtrr-explain": "mtrr_explain", "mtrr-judge": "mtrr_judge"}


class BadLine(Exception):
    """Why a line isn't of the format."""


def program_of(file):
    """The program whose rows this file has."""
    folder = os.path.basename(os.path.dirname(os.path.abspath(file)))
    return folder if folder in CRATES else "mtrr"


class Row:
    def __init__(self, file, number, name):
        self.file, self.number, self.name = file, number, name
        self.program = program_of(file)
        self.words = None
        self.input = b""
        self.output = b""
        self.errors = b""
        self.status = None

    def compared(self, errors):
        """What of standard error is compared."""
        return errors


def unescaped(text):
    def byte(match):
        if match.group(1) is not None:
            return bytes.fromhex(match.group(1).decode())
        if match.group(2) not in PLAIN:
            raise BadLine("bad escape")
        return PLAIN[match.group(2)]

    return ESCAPE.sub(byte, text)


def words_of(text, is_right):
    words = []
    for word in text.split(b" ") if text else []:
        if not word:
            raise BadLine("two blanks")
        words.append(b"" if word == b'""' else unescaped(word))
        if not is_right(words[-1]):
            raise BadLine("a word that isn't UTF-8, or with a NUL")
    return words


def has_no_nul(word):
    return b"\0" not in word


def is_text(word):
    try:
        return "\0" not in word.decode()
    except UnicodeDecodeError:
        return False


def piece_of(text):
    """The bytes of a line of input, output or standard error: a backslash at its end stands for no LF."""
    ends = len(text) - len(text.rstrip(b"\\"))
    return unescaped(text[:-1]) if ends % 2 == 1 else unescaped(text) + b"\n"


def status_of(text):
    if not re.fullmatch(rb"[0-9]{1,3}", text) or int(text) > 255:
        raise BadLine("bad status")
    return int(text)


# The kinds of lines that may follow each kind. A row ends with the line of its status.
NEXT = {b"-": b"$", b"$": b"<>!=", b"<": b"<>!=", b">": b">!=", b"!": b"!=", b"=": b"-"}


class Reader:
    """Reads the rows of a file, line by line."""

    def __init__(self, file):
        self.file = file
        self.is_right = has_no_nul if os.path.basename(os.path.dirname(os.path.abspath(file))) == "bytes" else is_text
        self.rows = []
        self.names = set()
        self.last = b"="

    def line(self, number, line):
        if line.endswith(b" ") or not re.fullmatch(rb"[ -~]*", line):
            raise BadLine("a blank at the end, or a byte that has to be escaped")
        kind, text = line[:1], line[2:]
        if self.last == b"=" and kind in (b"", b"#"):
            return
        if not kind or kind not in NEXT[self.last] or line[1:2] not in (b"", b" "):
            raise BadLine("no line of this kind here")
        self.last = kind
        if kind == b"-":
            if not text or text in self.names:
                raise BadLine("no name, or that of an earlier row")
            self.names.add(text)
            self.rows.append(Row(self.file, number, text.decode()))
            return
        row = self.rows[-1]
        if kind == b"$":
            row.words = words_of(text, self.is_right)
        elif kind == b"<":
            row.input += piece_of(text)
        elif kind == b">":
            row.output += piece_of(text)
        elif kind == b"!":
            row.errors += piece_of(text)
        else:
            row.status = status_of(text)

    def end(self, text):
        if self.last != b"=" or not text.endswith(b"\n"):
            raise BadLine("no end")


def rows_of(file):
    reader = Reader(file)
    number = 0
    try:
        text = bytes_of(file)
        for number, line in enumerate(text.split(b"\n"), 1):
            reader.line(number, line)
        reader.end(text)
    except (BadLine, OSError) as bad:
        print(f"rows: {os.path.relpath(file)}:{number}: {bad}", file=sys.stderr)
        sys.exit(2)
    return reader.rows


def bytes_of(file):
    with open(file, "rb") as opened:
        return opened.read()


def files_of_mtrr():
    return sorted(glob.glob(os.path.join(ROWS, "*.rows")))


def all_files():
    return files_of_mtrr() + sorted(glob.glob(os.path.join(ROWS, "*", "*.rows")))
