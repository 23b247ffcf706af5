"""Reads the contracts of public functions out of crates/*/src. `clauses` and `proved` share it."""
import dataclasses
import itertools
import pathlib
import re

FUNCTION = re.compile(r'^( *)(pub )?(?:unsafe )?(?:extern "C" )?fn (\w+)')
OWNER = re.compile(r"^(?:pub )?(?:impl|trait)\b(?:<[^{]*?>)? *(.*?)\s*(?:: |\{|$)")


@dataclasses.dataclass
class Function:
    crate: str
    file: str  # in src/
    owner: str  # the type or trait, "" for a free function
    name: str
    doc: str  # its doc comment, in one line
    parts: list  # `pub fn ..` up to the first clause, and each clause
    is_law: bool  # its body is empty, or only calls what a proof needs

    def title(self):
        return f"{self.owner}::{self.name}" if self.owner else self.name

    def ensured(self):
        """The name, or "", and the text of each clause that it ensures."""
        matches = [re.match(r"ensures\*? ?(\w*) ?\{ ?(.*?) ?\}? ?;?$", part) for part in self.parts]
        return [match.groups() for match in matches if match]


def doc_above(lines, place):
    """The doc comment above a line, in one line."""
    doc = []
    while place > 0 and re.match(r"\s*(///|#\[)", lines[place - 1]):
        place -= 1
        if lines[place].strip().startswith("///"):
            doc.insert(0, lines[place].strip()[3:].strip())
    return " ".join(doc)


def is_law(lines):
    """Whether a body is empty, or has only calls that are marked as facts for the proof."""
    calls = itertools.takewhile(lambda line: line != "}", lines[1:])
    return lines[0] == "{}" or (lines[0] == "{" and all(line.endswith("// a fact for the proof") for line in calls))


def functions_of(path, crate, file):
    """Yields each public function of a file, and each function of a trait or of its impls."""
    owner, whole, lines = "", False, path.read_text(encoding="utf-8").split("\n")
    for place, line in enumerate(lines):
        opened = OWNER.match(line)
        if opened:
            owner, whole = opened.group(1), "trait" in line or " for " in line
        elif line == "}":
            owner = ""
        head = FUNCTION.match(line)
        if not head or not (head.group(2) or (owner and whole)):
            continue
        text, body = [], [""]
        for at, piece in enumerate(lines[place:], place):
            piece = piece.removeprefix(head.group(1))
            if piece.startswith("{") or (text and re.match(r"(pub |ghost |///|#\[|})", piece)):
                body = [piece, *lines[at + 1 :]]
                break
            if not piece.strip().startswith("//"):
                text.append(piece.strip())
            if piece.endswith(";") or (piece.endswith(" {") and (len(text) == 1 or piece.startswith(")"))):
                break
        parts = re.split(r" (?=(?:ensures|requires)\b)", " ".join(" ".join(text).removesuffix("{").split()))
        yield Function(crate, file, owner, head.group(3), doc_above(lines, place), parts, is_law(body))


def functions_in(top):
    """All public functions in the files of the repository's crates, except those of crates of tests."""
    for path in sorted(pathlib.Path(top).glob("crates/*/src/**/*.rt")):
        crate, _, *file = path.relative_to(pathlib.Path(top) / "crates").parts
        if not crate.endswith("_tests"):
            yield from functions_of(path, crate, "/".join(file))


def names_used(source):
    """The names that a file's `pub use` items hand on."""
    for item in re.findall(r"^pub use ([^;]+);", source, re.M):
        inner = re.search(r"\{(.*)\}", item, re.S)
        for name in (inner.group(1) if inner else item).split(","):
            yield re.split(r"::| as ", name.strip())[-1]


def exports_of(folder, file="lib.rt"):
    """The public modules of a crate, by file, and the names that these hand on."""
    source = (folder / file).read_text(encoding="utf-8")
    files, names = {file}, set(names_used(source))
    for module in re.findall(r"^pub mod (\w+);", source, re.M):
        inside = "" if file == "lib.rt" else file.removesuffix(".rt") + "/"
        more_files, more_names = exports_of(folder, f"{inside}{module}.rt")
        files, names = files | more_files, names | more_names
    return files, names


def exported_functions(top):
    """The functions that another crate can call: in a public module, or handed on by name, or of a type or trait that is."""
    libraries = pathlib.Path(top).glob("crates/*/src/lib.rt")
    exports = {library.parts[-3]: exports_of(library.parent) for library in libraries}
    for function in functions_in(top):
        files, names = exports.get(function.crate, ((), ()))
        owner = re.match(r"\w*", function.owner.split(" for ")[-1]).group()
        if function.file in files or (owner or function.name) in names:
            yield function


def invariants_in(top, crate):
    """Each public type of a crate that keeps an invariant, with the predicates of it, or with its text where it has none."""
    for path in sorted((pathlib.Path(top) / "crates" / crate / "src").glob("**/*.rt")):
        source = path.read_text(encoding="utf-8")
        for name, body in re.findall(r"^impl(?:<[^{]*?>)? Model for (\w+).*?\{\n(.*?)^}", source, re.M | re.S):
            if re.search(rf"^pub\(crate\) (?:struct|enum) {name}\b", source, re.M):
                continue
            for text in re.findall(r"ghost invariant = \{ (?:λ \w+\. )?(.*?) \};", body, re.S):
                text = " ".join(text.split())
                yield name, " ".join(f"`{word}`" for word in dict.fromkeys(re.findall(r"[A-Z]\w+", text))) or f"`{text}`"
