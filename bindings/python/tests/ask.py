"""Asks a dump on standard input, as `mtrr` does: `check`, `types`, `page ADDR INDEX`, `tidy [CHUNK]` or `gran SIZE [CHUNK]`.
Of several processors it takes the first. `library/compare` compares what it prints with the program's output."""
import sys

import mtrr

PAT_NAMES = {**{kind.value: kind.name for kind in mtrr.MemoryType}, 7: "UC-"}


def number(words: "list[str]", place: int, usual: int) -> int:
    return int(words[place], 16) if len(words) > place else usual


def answer(cpu: mtrr.Registers, words: "list[str]") -> str:
    question = words[0] if words else "check"
    faults = cpu.faults()
    if faults:
        raise mtrr.FaultError(faults[0])
    if question == "types":
        return "".join(f"{run}\n" for run in cpu.types())
    if question == "page":
        address, entry = number(words, 1, 0), number(words, 2, 0)
        kind, effective = cpu.type_at(address), cpu.effective_type_at(address, entry)
        return f"page {address & ~0xFFF:013x} mtrr {kind.name} pat {PAT_NAMES[cpu.pat >> 8 * entry & 0xFF]} effective {effective.name}\n"
    if question == "tidy":
        tidied = cpu.tidy(1, number(words, 1, 0x10000000))
        return f"# used {tidied.used}\n{tidied.registers.dump()}"
    if question == "gran":
        rounded = cpu.gran(number(words, 1, 0), 1, number(words, 2, 0x10000000))
        parts = "".join(f"# part {part}\n" for part in rounded.parts)
        return f"{parts}# lost {rounded.lost_pages}\n# used {rounded.used}\n{rounded.registers.dump()}"
    return "accepted\n"


def main(words: "list[str]") -> int:
    cpu = mtrr.parse(sys.stdin.read())[0]
    try:
        sys.stdout.write(answer(cpu, words))
        return 0
    except mtrr.FaultError as error:
        print(f"refused {error.fault.register:03x} {error.fault.reason}")
    except mtrr.TooFew as error:
        print(f"too few needs {error.needs} has {error.has}")
    except mtrr.Error:
        print(f"disabled 2ff {cpu.default_type:016x}")
    return 1


if __name__ == "__main__":
    sys.exit(main(sys.argv[1:]))
