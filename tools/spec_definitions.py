"""Reads the definitions in crates/*/specs, and follows what they cite. `proved` uses it."""
import dataclasses
import pathlib
import re

ITEM = re.compile(r"^(?:--.*\n)*(?:pub )?(?:abbrev|unfoldable|data|record) (?:pub )?(\w+)", re.M)
IMPORT = re.compile(r"^ *(?:pub |ghost )?use Rattle\.([\w.]+?)(?:\.\{(.*)\})?(?: as (\w+))?;?$")
WORD = re.compile(r"[^\W\d]\w*(?:\.[^\W\d]\w*)*")
BOUND = re.compile(r"[({]([\w ]+) :|λ ([\w ]+)\.|^ +(?:pub )?(\w+) :|(\w+) = ", re.M)


@dataclasses.dataclass
class Definition:
    file: str  # CRATE/FILE
    name: str
    text: str  # with the comment above it

    def lines(self):
        """How many lines it has, comments and blank lines left out."""
        return sum(bool(line.strip()) and not line.strip().startswith("--") for line in self.text.split("\n"))

    def is_relation(self):
        """Whether it is a statement, or takes arguments to one: no function's value, and no record of plain values."""
        return self.name[0].isupper() and not re.search(rf"(record|data) (pub )?{self.name} : Type", self.text)

    def words(self):
        """The names that it may cite: all words but those that it binds."""
        for part in re.split(r"\n(?=\S)", self.text):
            if part.startswith("--"):
                continue
            part = re.sub(r"--.*", "", part)
            equation = re.match(r"\w+((?: .*?)?) =\s", part)
            bound = {word for word in re.findall(r"\w+", equation.group(1) if equation else "") if word[0].islower()}
            bound |= {word for groups in BOUND.findall(part) for names in groups for word in names.split()}
            yield from (word for word in WORD.findall(part) if word.split(".")[0] not in bound)


def imports_of(source):
    """Where the names come from that a file imports: from each name to (module, name there), or to (module, "") for a whole module."""
    found = {}
    for line in source.split("\n"):
        match = IMPORT.match(line)
        if match:
            module, names, alias = match.groups()
            for name in (names or "").split(","):
                there, here = (re.split(" as ", name.strip()) * 2)[:2]
                found[here] = (module, there)
            if alias:
                found[alias] = (module, "")
    return found


def file_and_name(module, name):
    """The file CRATE/FILE that a module's path tells of, and the definition there; for a type that src/ declares CRATE/declared and the type."""
    crate, _, file, *inside = module.split(".") + [name]
    if file == "declared":
        return f"{crate}/declared", inside[1] if len(inside) > 1 else inside[0]
    return f"{crate}/{file}", inside[0] if inside else ""


class Definitions:
    """All definitions of a repository, by file CRATE/FILE and name."""

    def __init__(self, top):
        self.heads, self.imports, self.items, self.variants = {}, {}, {}, {}
        for path in sorted(pathlib.Path(top).glob("crates/*/specs/*.antt")):
            file, source = f"{path.parts[-3]}/{path.stem}", path.read_text(encoding="utf-8")
            self.heads[file] = re.match(r"(?:--.*\n)*", source).group().replace("\n-- ", " ")[3:]
            self.imports[file] = imports_of(source)
            for block in source.split("\n\n"):
                self.add(file, block.strip("\n"))

    def add(self, file, block):
        """Splits a block of lines into its definitions, each with the comment above it."""
        starts = list(ITEM.finditer(block))
        for start, end in zip(starts, [next_start.start() for next_start in starts[1:]] + [len(block)]):
            item = Definition(file, start.group(1), block[start.start() : end].strip("\n"))
            self.items[file, item.name] = item
            self.variants.update({(file, name): item for name in re.findall(r"^  (\w+) :", item.text, re.M)})

    def cited(self, words, file, imports):
        """The definitions, by file and name, that words of a file mean."""
        for word in words:
            first, _, rest = word.partition(".")
            module, name = imports.get(first, ("", ""))
            if module.startswith("mt_"):
                yield file_and_name(module, name or rest.split(".")[0])
            elif (file, first) in self.items or (first[0].isupper() and (file, first) in self.variants):
                yield file, first

    def followed(self, start):
        """All definitions that are cited by the given keys, and what these cite in turn."""
        found, seen, waiting = {}, set(), list(start)
        while waiting:
            file, name = key = waiting.pop()
            if key in seen:
                continue
            seen.add(key)
            item = self.items.get(key) or self.variants.get(key)
            found[key] = item
            waiting += self.cited(item.words() if item else [name], file, self.imports.get(file, {}))
        return found
