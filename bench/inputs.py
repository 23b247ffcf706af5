#!/usr/bin/env python3
"""The inputs of bench/run and of tools/counts: dumps and scripts, the same on each machine.
    bench/inputs.py NAME [BYTES]    writes one to standard output: a dump of so many bytes, from 42 on, or as many whole rounds as so many bytes
                                    have room for, behind a script's machine, which is written in any case
    bench/inputs.py                 the names"""
import random
import sys

MOST = 1 << 24
PROCESSORS, PAGES, PAGE_WORDS = 16, 64, 512
DUMP = "0fe 508\n200 6\n201 f00000800\n2ff 800\n"
TYPES = (4, 1, 5, 6)


def commented(line, size):
    """A dump of exactly so many bytes below comments."""
    count, rest = divmod(size - len(DUMP), len(line))
    return line * count + ("#" * (rest - 1) + "\n" if rest else "") + DUMP


def machine(processors=PROCESSORS):
    """16 MB of WB memory, of which each processor maps the first 256 KB. Processors with an even number have global pages."""
    yield f"cpus {processors}\ndump\n{DUMP}end\nram 0 4096\n"
    for k in range(processors):
        if k % 2 == 0:
            yield f"pge {k} on\n"
        for page in range(PAGES):
            yield f"map {k} {page << 12:x} {page << 12:x} 0{' global' if page % 2 == 0 else ''}\n"


def update(number):
    return f"update\n200 {TYPES[number % len(TYPES)]}\nend\nreport\n"


def access(draw, k, word):
    return f"load {k} {8 * word:x}\n" if draw.random() < 0.5 else f"store {k} {8 * word:x} {draw.getrandbits(64):x}\n"


def spread(draw):
    """An access of any processor to any word."""
    return access(draw, draw.randrange(PROCESSORS), draw.randrange(PAGES * PAGE_WORDS))


def near(draw):
    """An access mostly to 2 KB that are the processor's own, which its cache holds."""
    k = draw.randrange(PROCESSORS)
    return access(draw, k, k * 256 + draw.randrange(256) if draw.random() < 0.95 else draw.randrange(4096))


def accesses(kind, per_update):
    """Rounds of accesses, each with an update at its end if there is a number of accesses for that."""
    def rounds(draw):
        number = 0
        while True:
            yield "".join(kind(draw) for _ in range(per_update or 4096)) + (update(number) if per_update else "")
            number += 1
    return rounds


def steps(draw):
    """Rounds of stores, and of an update that each processor goes through step by step."""
    while True:
        stores = "".join(f"store {draw.randrange(PROCESSORS)} {8 * draw.randrange(PAGES * PAGE_WORDS):x} {draw.getrandbits(64):x}\n" for _ in range(512))
        yield stores + "begin\nend\ngo\n" + "".join(f"step {k}\n" for k in range(PROCESSORS)) * 110 + "report\n"


def script(rounds, size):
    """The machine, and so many whole rounds as there is room for."""
    pieces = list(machine())
    length = sum(map(len, pieces))
    for piece in rounds(random.Random(1)):
        length += len(piece)
        if length > size:
            return "".join(pieces)
        pieces.append(piece)


def updates(processors, count, has_lines):
    """Updates without accesses, or each behind a load by each processor, so that each cache has a line."""
    pieces = list(machine(processors))
    loads = "".join(f"load {k} {k << 12:x}\n" for k in range(processors)) if has_lines else ""
    pieces += [loads + "update\n200 6\nend\n"] * count if count else [loads]
    return "".join(pieces)


# Each input: the command that reads it, and the text for a size.
INPUTS = {
    "short-lines": ("check", lambda size: commented("###############\n", size), MOST),
    "long-lines": ("check", lambda size: commented("# a comment of an ordinary length in a register dump, and a little more text\n", size), MOST),
    "steps": ("replay", lambda size: script(steps, size), 4 << 20),
    "hits": ("replay", lambda size: script(accesses(near, 0), size), 4 << 20),
    "spread": ("replay", lambda size: script(accesses(spread, 0), size), 3 << 20),
    "spread-few-updates": ("replay", lambda size: script(accesses(spread, 65536), size), 4 << 20),
    "hits-updates": ("replay", lambda size: script(accesses(near, 4096), size), 4 << 20),
    "spread-updates": ("replay", lambda size: script(accesses(spread, 512), size), MOST),
}


def text_of(name, size=None):
    _, make, usual = INPUTS[name]
    return make(size or usual).encode()


def main(words):
    if not words:
        print("\n".join(INPUTS))
    elif words[0] in INPUTS and (len(words) == 1 or len(words) == 2 and words[1].isdecimal()):
        sys.stdout.buffer.write(text_of(words[0], *map(int, words[1:])))
    else:
        print(__doc__, file=sys.stderr)
        return 2
    return 0


if __name__ == "__main__":
    sys.exit(main(sys.argv[1:]))
