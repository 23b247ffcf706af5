"""The readings of the logs of examples/logs, MAP.FORMAT.log, as rows of mtrr-import. Each log is read by the name of its format and by
`auto`: without words, where standard error has to name just what docs/IMPORT.md says that the format can't show, then with the
capabilities alone, and with words for all of it, where examples/MAP.dump has to come back as `mtrr show` writes it. That this is so
written are rows of mtrr."""
import glob
import os
import re
import sys

from row_files import TOP, Row, bytes_of

FIXED = ["250", "258", "259"] + [f"{register:x}" for register in range(0x268, 0x270)]
PAT = 0x7040600070406


class Reading(Row):
    """A row whose standard error is read for the registers alone that it names as missing."""

    def __init__(self, file, program, words, missing, output):
        super().__init__(file, 1, " ".join(words))
        self.program = program
        self.words = [word.encode() for word in words]
        self.input, self.output = bytes_of(file), output
        self.errors = b"".join(name.encode() + b"\n" for name in missing)
        self.status = 1 if missing else 0

    def compared(self, errors):
        return b"".join(name + b"\n" for name in re.findall(rb"^missing ([^:\n]*):", errors, re.MULTILINE))


def registers_of(dump):
    """The registers of a dump's file, as `mtrr show` writes them."""
    lines = [line.split("#")[0].replace(":", " ").split() for line in bytes_of(dump).decode().splitlines()]
    said = dict(words for words in lines if words)
    values = {f"{int(name, 16):03x}": int(value, 16) for name, value in said.items() if name != "maxphyaddr"}
    pairs = [f"{0x200 + at:x}" for at in range(2 * (values["0fe"] & 255))]
    fixed = FIXED if values["0fe"] & 256 else []
    shown = {name: f"{values.get(name, PAT if name == '277' else 0):016x}" for name in ["0fe", *pairs, *fixed, "277", "2ff"]}
    return {"maxphyaddr": said.get("maxphyaddr", "36"), **shown}


def pairs_of(registers, is_valid):
    """The registers of the pairs whose masks are valid, or aren't."""
    bases = [name for name in registers if re.fullmatch("2[0-3][02468ace]", name)]
    pairs = [(base, base[:2] + "%x" % (int(base[2], 16) + 1)) for base in bases]
    return [name for base, mask in pairs if (int(registers[mask], 16) >> 11) % 2 == is_valid for name in (base, mask)]


def hidden_in(form, registers):
    """The registers of a dump that no log of the format shows."""
    hidden = set()
    if form not in ("x86info", "coreboot"):
        hidden.add("maxphyaddr")
    if form in ("edk2", "linux", "xen"):
        hidden.add("0fe")
    if form == "edk2":
        hidden.update(pairs_of(registers, False))
    if form == "x86info":
        hidden.update(name for name in registers if re.fullmatch("2[1-3].", name))
        hidden.update(["268"] if "20e" in registers else ["250", "268"])
    if form not in ("rdmsr", "inteltool", "linux"):
        hidden.add("277")
    return [name for name in registers if name in hidden]


def text_of(registers):
    return "".join(f"{name} {value}\n" for name, value in registers.items()).encode()


def words_of(names, registers):
    return [f"{name}={registers[name]}" for name in names]


def readings_of(log, registers):
    form = os.path.basename(log).split(".")[1]
    hidden = hidden_in(form, registers)
    # (a kernel shows pairs that are disabled as 0)
    disabled = [name for name in pairs_of(registers, False) if form in ("linux", "xen") and int(registers[name], 16)]
    rest = [name for name in hidden if name != "0fe"]
    for reader in (form, "auto"):
        if hidden:
            yield Reading(log, "mtrr-import", [reader], hidden[: hidden.index("0fe") + 1] if "0fe" in hidden else hidden, b"")
        if "0fe" in hidden and rest:
            yield Reading(log, "mtrr-import", [reader, *words_of(["0fe"], registers)], rest, b"")
        yield Reading(log, "mtrr-import", [reader, *words_of(hidden + disabled, registers)], [], text_of(registers))


def readings():
    logs = sorted(glob.glob(os.path.join(TOP, "examples", "logs", "*.log")))
    if not logs:
        sys.exit("log_rows: examples/logs has no log")
    dumps = {log: os.path.join(TOP, "examples", os.path.basename(log).split(".")[0] + ".dump") for log in logs}
    registers = {dump: registers_of(dump) for dump in dumps.values()}
    shown = [Reading(dump, "mtrr", ["show"], [], text_of(values)) for dump, values in registers.items()]
    return shown + [row for log, dump in dumps.items() for row in readings_of(log, registers[dump])]
