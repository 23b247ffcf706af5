"""A case of mtrr-judge as a model in Promela, for Spin: one process, whose options are the steps of each processor's list and, if the
case speculates, its translations and fetches. A state is what the model's variables have, so Spin's states are those of `all`."""
import re

TYPES = {0: "UC", 4: "WT", 5: "WP", 6: "WB"}
KINDS = {"UC": 0, "WT": 4, "WP": 5, "WB": 6}


class Unknown(Exception):
    """What of a case the model hasn't."""


class Case:
    """The parts of a case: words are numbered by their values, and pages by their mappings."""

    def __init__(self, text):
        lines = [line.split("#")[0].split() for line in text.splitlines()]
        self.lines = [line for line in lines if line]
        self.count = int(self.lines[0][1])
        self.speculates = ["speculate"] in self.lines
        if any(line[0] in ("leaking", "strict", "selfsnoop", "fence", "invlpg") for line in self.lines):
            raise Unknown("a line of another kind")
        old = dict(self.section("dump"))
        new = {**old, **dict(self.section("goal"))}
        self.writes = 2 * (int(old["0fe"], 16) & 0xff) + 1
        self.pages = sorted({line[2] for line in self.lines if line[0] == "map"})
        where = {line[2]: int(line[3], 16) for line in self.lines if line[0] == "map"}
        self.is_global = {line[2] for line in self.lines if line[0] == "map" and line[5:] == ["global"]}
        self.types = [(self.type_of(old, where[page]), self.type_of(new, where[page])) for page in self.pages]
        self.lists = {}
        for at, line in enumerate(self.lines):
            if line[0] == "procedure":
                steps = self.lines[at + 1:self.lines.index(["end"], at)]
                self.lists.update({int(k): steps for k in line[1:]})
        begins = next(at for at, line in enumerate(self.lines) if line == ["end"])
        ends = self.lines.index(["goal"])
        self.start = [line for line in self.lines[begins:ends] if line[0] in ("store", "load", "pge")]
        stored = [line[-1] for line in [*self.start, *(step for steps in self.lists.values() for step in steps)] if line[0] == "store"]
        self.values = ["0", *dict.fromkeys(stored)]

    def section(self, name):
        at = self.lines.index([name]) + 1
        return [line for line in self.lines[at:self.lines.index(["end"], at)]]

    def type_of(self, file, address):
        """By the variable ranges: UC before WT before WB. None else stand over one another here."""
        found = [int(file["2ff"], 16) & 0xff]
        ranged = []
        for pair in range(0x200, 0x200 + self.writes - 1, 2):
            base, mask = (int(file.get(f"{number:x}", "0"), 16) for number in (pair, pair + 1))
            if mask >> 11 & 1 and address >> 12 & mask >> 12 == base >> 12 & mask >> 12:
                ranged.append(base & 0xff)
        kind = min(ranged or found)
        if kind not in TYPES:
            raise Unknown("write-combining memory")
        return TYPES[kind]


HEAD = """/* {name}: {count} processors, {pages} pages. Types are UC 0, WT 4, WP 5, WB 6. A TLB entry is 0, or its type and 1, with 16 if it is
   global and 32 if it was made after the update. A line is 0, or 1 if clean and 2 if dirty, with 4 if
   it was filled after the update. */
#define CACHED(t) ((t) >= 4)
#define DIRTY(c) ((line[c] & 3) == 2)
#define TYPE(k, p) (e[k] -> (w[k] -> new_##p : old_##p) : 0)
#define AT(k, p) ((k) * {pages} + (p))
#define KIND(k, p) (entry[AT(k, p)] -> (entry[AT(k, p)] & 15) - 1 : TYPE(k, p))
{types}
byte pc[{count}];
byte came[8];
bool cd[{count}], e[{count}], w[{count}], pge[{count}], was[{count}], late[{count}];
byte entry[{cells}], line[{cells}], word[{cells}];
byte mem[{pages}];
"""


class Model:
    def __init__(self, name, case):
        self.case, self.name = case, name
        self.n, self.p = case.count, len(case.pages)

    def at(self, k, p):
        return k * self.p + p

    def translate(self, k, p):
        """Makes the entry that is missing."""
        wide = f" + (late[{k}] -> 32 : 0)" + (f" + (pge[{k}] -> 16 : 0)" if self.case.pages[p] in self.case.is_global else "")
        return f"if :: entry[{self.at(k, p)}] == 0 -> entry[{self.at(k, p)}] = TYPE({k}, {p}) + 1{wide} :: else fi; "

    def write_back(self, p, but=None):
        cells = [self.at(j, p) for j in range(self.n) if j != but]
        return "".join(f"if :: DIRTY({c}) -> mem[{p}] = word[{c}]; line[{c}]-- :: else fi; " for c in cells)

    def drop(self, p, but=None):
        return "".join(f"line[{self.at(j, p)}] = 0; word[{self.at(j, p)}] = 0; " for j in range(self.n) if j != but)

    def fill(self, k, p):
        return f"line[{self.at(k, p)}] = 1 + (late[{k}] -> 4 : 0); word[{self.at(k, p)}] = mem[{p}]; "

    def own(self, k, p, v, state):
        return f"line[{self.at(k, p)}] = (line[{self.at(k, p)}] & 4) + {state}; word[{self.at(k, p)}] = {v}; "

    def load(self, k, p):
        here = f"line[{self.at(k, p)}]"
        return (self.translate(k, p) + f"if :: CACHED(KIND({k}, {p})) && {here} -> skip :: else -> {self.write_back(p)}"
                f"if :: CACHED(KIND({k}, {p})) && !cd[{k}] -> {self.fill(k, p)}:: else fi fi; ")

    def store(self, k, p, v):
        kind, here = f"KIND({k}, {p})", f"line[{self.at(k, p)}]"
        past = f"{self.write_back(p)}{self.drop(p, k)}mem[{p}] = {v}; "
        return (self.translate(k, p) +
                f"if :: {kind} == 0 || {kind} == 5 -> {self.write_back(p)}{self.drop(p)}mem[{p}] = {v} "
                f":: {kind} == 4 -> {past}if :: {here} -> {self.own(k, p, v, 1)}:: else fi "
                f":: {kind} == 6 && {here} -> {self.write_back(p, k)}{self.drop(p, k)}{self.own(k, p, v, 2)}"
                f":: {kind} == 6 && !{here} && cd[{k}] -> {past}"
                f":: {kind} == 6 && !{here} && !cd[{k}] -> {self.write_back(p)}{self.drop(p, k)}{self.fill(k, p)}{self.own(k, p, v, 2)}fi; ")

    def drop_entries(self, k, everything):
        cells = [self.at(k, p) for p in range(self.p)]
        if everything:
            return "".join(f"entry[{c}] = 0; " for c in cells)
        return "".join(f"if :: !(entry[{c}] & 16) -> entry[{c}] = 0 :: else fi; " for c in cells)

    def step(self, k, step):
        """What a step does, as pairs of a guard and statements. A pair without `next` stays at the step."""
        name, *words = step
        lines = [self.at(k, p) for p in range(self.p)]
        if name == "wbinvd":
            clean = " && ".join(f"!DIRTY({c})" for c in lines)
            for p, c in enumerate(lines):
                before = "".join(f" && !DIRTY({other})" for other in lines[:p])
                yield f"DIRTY({c}){before}", f"mem[{p}] = word[{c}]; line[{c}]--; ", False
            yield clean, "".join(f"line[{c}] = 0; word[{c}] = 0; " for c in lines), True
            return
        guard, does = "true", {
            "take": "", "release": f"late[{k}] = 1; ", "set-cd": f"cd[{k}] = 1; ", "clear-cd": f"cd[{k}] = 0; ", "clear-e": f"e[{k}] = 0; ",
            "enable": f"e[{k}] = 1; ", "restore-pge": f"pge[{k}] = was[{k}]; was[{k}] = 0; ", "reload-cr3": self.drop_entries(k, False),
            "clear-pge": f"was[{k}] = pge[{k}]; if :: pge[{k}] -> {self.drop_entries(k, True)}:: else -> {self.drop_entries(k, False)}fi; pge[{k}] = 0; ",
        }.get(name)
        if name == "arrive":
            does = f"came[{words[0]}]++; "
        elif name == "wait":
            guard, does = f"came[{words[0]}] >= {words[1]}", ""
        elif name == "pge":
            value = int(words[-1] == "on")
            does = f"if :: pge[{k}] != {value} -> {self.drop_entries(k, True)}pge[{k}] = {value} :: else fi; "
        elif name == "load":
            does = self.load(k, self.case.pages.index(words[0]))
        elif name == "store":
            does = self.store(k, self.case.pages.index(words[0]), self.case.values.index(words[1]))
        if does is None:
            raise Unknown(" ".join(step))
        yield guard, does, True

    def steps(self, k):
        at = 0
        for step in self.case.lists.get(k, ()):
            for i in range(self.case.writes if step[0] == "write" else 1):
                if step[0] == "write":
                    yield at, "true", "w[%d] = 1; " % k if i == self.case.writes - 1 else "", True
                else:
                    yield from ((at, *part) for part in self.step(k, step))
                at += 1

    def speculations(self, k):
        for p in range(self.p):
            c = self.at(k, p)
            yield f"entry[{c}] == 0", self.translate(k, p)
            yield (f"!cd[{k}] && CACHED(KIND({k}, {p})) && line[{c}] == 0",
                   f"{self.translate(k, p)}{self.write_back(p)}{self.fill(k, p)}")

    def begin(self):
        text = "".join(f"e[{k}] = 1; " for k in range(self.n))
        for name, k, *words in self.case.start:
            text += "".join(does for _, does, _ in self.step(int(k), [name, *words]))
        return text

    def text(self):
        types = "\n".join(f"#define old_{p} {KINDS[old]}\n#define new_{p} {KINDS[new]}" for p, (old, new) in enumerate(self.case.types))
        text = HEAD.format(name=self.name, count=self.n, pages=self.p, cells=self.n * self.p, types=types)
        options = []
        for k in range(self.n):
            for at, guard, does, is_next in self.steps(k):
                options.append(f":: d_step {{ pc[{k}] == {at} && {guard} -> {does}{f'pc[{k}] = {at + 1}' if is_next else 'skip'} }}")
            if self.case.speculates:
                options += [f":: d_step {{ {guard} -> {does}skip }}" for guard, does in self.speculations(k)]
        body = "\n".join(options)
        return f"{text}\nactive proctype machine() {{\nd_step {{ {self.begin()}skip }}\nend: do\n{body}\nod\n}}\n"
