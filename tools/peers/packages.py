"""Debian's source packages: fetched into a cache folder, cut, and compiled with the shims of this folder."""
import os
import pathlib
import pwd
import re
import subprocess
import sys

HERE = pathlib.Path(__file__).resolve().parent
CACHE = pathlib.Path(os.environ.get("XDG_CACHE_HOME") or pathlib.Path.home() / ".cache") / "mtrr-peers"
KEYRING = "/usr/share/keyrings/debian-archive-keyring.gpg"
SOURCES = f"""deb-src [signed-by={KEYRING}] http://deb.debian.org/debian bookworm main
deb-src [signed-by={KEYRING}] http://deb.debian.org/debian bookworm-updates main
deb-src [signed-by={KEYRING}] http://deb.debian.org/debian-security bookworm-security main
"""
VERSIONS = {
    "linux": "6.1.176-1",
    "xen": "4.17.5+72-g01140da4e8-1",
    "edk2": "2022.11-6+deb12u2",
    "coreboot": "4.15~dfsg-3",
}


class Unavailable(Exception):
    """Why a judge can't be had."""


def run(words, **options):
    try:
        return subprocess.run([str(word) for word in words], capture_output=True, text=True, **options)
    except FileNotFoundError:
        raise Unavailable(f"there is no program {words[0]}")


class Apt:
    """An apt with folders and source lines of its own, which leaves the system's alone."""

    def __init__(self, is_newest=False):
        self.is_newest, self.used = is_newest, {}
        self.root = CACHE / "apt"
        for folder in ("state/lists/partial", "cache/archives/partial"):
            (self.root / folder).mkdir(parents=True, exist_ok=True)
        (self.root / "sources.list").write_text(SOURCES)
        self.updated = False

    def run(self, program, *words, **options):
        settings = {
            "Dir::Etc::SourceList": self.root / "sources.list", "Dir::Etc::SourceParts": "/dev/null",
            "Dir::State": self.root / "state", "Dir::Cache": self.root / "cache",
            "Acquire::Languages": "none", "APT::Sandbox::User": pwd.getpwuid(os.getuid()).pw_name,
        }
        return run([program, *(f"-o{name}={value}" for name, value in settings.items()), *words], **options)

    def update(self):
        if self.updated:
            return
        print("peers: fetching the lists of Debian's source packages", file=sys.stderr)
        ran = self.run("apt-get", "-qq", "update")
        if ran.returncode != 0:
            raise Unavailable(f"apt-get update failed:\n{ran.stderr}")
        self.updated = True

    def had(self, package):
        """The versions that Debian has now."""
        self.update()
        return sorted(set(re.findall(r"^Version: (.*)$", self.run("apt-cache", "showsrc", "--only-source", package).stdout, re.M)))

    def version(self, package):
        """The version of docs/PEERS.md if it is in the cache or Debian still has it, and the newest isn't asked for; else Debian's newest."""
        if package not in self.used:
            pinned = VERSIONS[package]
            is_taken = not self.is_newest and (any((CACHE / f"{package}_{pinned}").glob("*.dsc")) or pinned in self.had(package))
            self.used[package] = pinned if is_taken else self.newest(package)
        return self.used[package]

    def newest(self, package):
        newest = "0"
        for version in self.had(package):
            if run(["dpkg", "--compare-versions", version, "gt", newest]).returncode == 0:
                newest = version
        if newest == "0":
            raise Unavailable(f"Debian has no source of {package}")
        if newest != VERSIONS[package]:
            print(f"peers: {package} {newest} in place of {VERSIONS[package]}, of which docs/PEERS.md speaks", file=sys.stderr)
        return newest

    def fetch(self, package, folder):
        """Downloads the files of the version in use into the folder."""
        version = self.version(package)
        print(f"peers: fetching the source of {package} {version}", file=sys.stderr)
        ran = self.run("apt-get", "-qq", "source", "--download-only", "--only-source", f"{package}={version}", cwd=folder)
        if ran.returncode != 0:
            raise Unavailable(f"{package} {version} can't be fetched:\n{ran.stderr}")


def patched(folder):
    """The paths that the patches of a package change, make, move or remove."""
    change = r"^(?:---|\+\+\+) (?!/dev/null)[^/\s]+/(\S+)|^(?:rename|copy) (?:from|to) (\S+)|^diff --git a/(\S+) b/(\S+)"
    paths = set()
    series = folder / "debian/patches/series"
    for line in series.read_text().splitlines() if series.exists() else ():
        name = line.split("#")[0].split()
        if name:
            text = (folder / "debian/patches" / name[0]).read_text(errors="replace")
            paths.update(path for found in re.findall(change, text, re.M) for path in found if path)
    return paths


def unpacked(package, paths, apt):
    """The folder with these paths of a package, which no patch of Debian's changes."""
    folder = CACHE / f"{package}_{apt.version(package)}"
    done = folder / ".checked"
    if done.exists() and done.read_text().split() == paths:
        return folder
    folder.mkdir(parents=True, exist_ok=True)
    if not list(folder.glob("*.dsc")):
        apt.fetch(package, folder)
    archives = [*folder.glob("*.orig.tar.*"), *folder.glob("*.debian.tar.*")]
    archives = [path for path in archives if not path.name.endswith(".asc")]
    if not any(".orig.tar." in path.name for path in archives) or not any(".debian.tar." in path.name for path in archives):
        raise Unavailable(f"{folder} has no whole source: remove it, and run this again")
    print(f"peers: unpacking {package}", file=sys.stderr)
    for archive in archives:
        strip, members = (0, ["debian"]) if ".debian.tar." in archive.name else (1, [f"*/{path}" for path in paths])
        ran = run(["tar", "-xf", archive, "-C", folder, f"--strip-components={strip}", "--wildcards", *members])
        if ran.returncode != 0:
            raise Unavailable(f"{package}: {archive.name} can't be unpacked:\n{ran.stderr}")
    if (folder / "debian/source/format").read_text().strip() != "3.0 (quilt)":
        raise Unavailable(f"{package}: its patches aren't where those of a package of format 3.0 (quilt) are")
    touched = sorted(path for path in patched(folder) if any(path == wanted or path.startswith(wanted + "/") for wanted in paths))
    if touched:
        raise Unavailable(f"{package}: a patch of Debian's changes {', '.join(touched)}")
    done.write_text("\n".join(paths) + "\n")
    return folder


def cut(text, name):
    """The definition of a function, variable, struct, enum or macro at the left margin of a C file."""
    lines = text.split("\n")
    for start, line in enumerate(lines):
        if re.match(rf"#\s*define\s+{name}\b", line):
            end = start
            while lines[end].endswith("\\"):
                end += 1
            return "\n".join(lines[start:end + 1]) + "\n"
        if re.match(r"[A-Za-z_]", line) and re.search(rf"\b{name}\b", line):
            end = end_of(lines, start)
            if end is not None:
                return "\n".join(lines[begin_of(lines, start):end + 1]) + "\n"
    raise Unavailable(f"no definition of {name}")


def begin_of(lines, start):
    """The first line of a definition whose name stands in line `start`: types may stand in lines before it."""
    while start and re.match(r"[A-Za-z_][\w\s*()]*$", lines[start - 1]):
        start -= 1
    return start


def end_of(lines, start):
    """The last line of a definition that begins here, or None where it's a declaration or a use."""
    for end in range(start, len(lines)):
        line = lines[end].split("/*")[0].rstrip()
        if line.startswith("}"):
            return end
        if end == start and "{" in line and line.endswith("};"):
            return end
        if line.endswith(";") and not any("{" in inner for inner in lines[start:end + 1]):
            is_declared = "(" in "".join(lines[start:end + 1]) and not lines[start].startswith("typedef")
            return None if is_declared else end
    return None


def without_includes(text, up_to=None):
    """A whole C file, or what stands before a line, without its `#include` lines."""
    if up_to is not None:
        if f"\n{up_to}" not in text:
            raise Unavailable(f"no line {up_to}")
        text = text[:text.index(f"\n{up_to}")] + "\n"
    return re.sub(r"^#\s*include.*$", "", text, flags=re.M)


class Judge:
    """A program for a judge: what it takes from a package, and the flags of its compiler."""

    def __init__(self, name, package, paths, pieces, flags=()):
        self.name, self.package, self.paths, self.pieces, self.flags = name, package, paths, pieces, flags

    def built(self, apt):
        """The compiled program."""
        folder = unpacked(self.package, self.paths, apt)
        cuts = CACHE / "cut" / self.name
        cuts.mkdir(parents=True, exist_ok=True)
        for file, path, names in self.pieces:
            text = (folder / path).read_text(errors="replace")
            if isinstance(names, (list, tuple)):
                text = "\n".join(cut(text, name) for name in names)
            else:
                text = without_includes(text, names)
            (cuts / file).write_text(text)
        program = CACHE / "bin" / self.name
        program.parent.mkdir(exist_ok=True)
        flags = [flag.replace("@", str(folder)) for flag in self.flags]
        ran = run([os.environ.get("CC", "cc"), "-O2", "-w", "-std=gnu11", f"-I{HERE}", f"-I{cuts}", *flags,
                   "-o", program, HERE / f"{self.name}.c", HERE / "judge.c"])
        if ran.returncode != 0:
            raise Unavailable(f"{self.name} doesn't compile:\n{ran.stderr[:4000]}")
        return program
