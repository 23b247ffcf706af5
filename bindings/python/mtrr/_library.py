"""Finds libmtrr.so and the programs, and declares the calls of `mtrr.h`."""
import ctypes
import os
import pathlib
import shutil
import subprocess
from ctypes import POINTER, c_size_t, c_uint8, c_uint32, c_uint64
from typing import Iterator, List

VERSION = "1.0.0"
ABI = 2
SONAME = f"libmtrr.so.{ABI}"
MAX_RUNS, MAX_PARTS = 153, 306

Words = c_uint64 * 79  # struct mtrr_registers
Work = c_uint64 * 6719  # struct mtrr_work
Two = c_uint64 * 2  # struct mtrr_need, struct mtrr_loss


class NotFound(Exception):
    """The library or a program isn't there, or is of another version."""


class Fault(ctypes.Structure):
    _fields_ = [("number", c_uint32), ("reason", c_uint32)]


class Run(ctypes.Structure):
    _fields_ = [("first", c_uint64), ("pages", c_uint64), ("kind", c_uint32)]


ARGUMENTS = {
    "mtrr_is_file": [POINTER(Words)],
    "mtrr_first_fault": [POINTER(Words), POINTER(Fault)],
    "mtrr_page_type": [POINTER(Words), c_uint64, POINTER(c_uint32)],
    "mtrr_effective_type": [POINTER(Words), c_uint64, c_uint32, POINTER(c_uint32)],
    "mtrr_type_map": [POINTER(Words), POINTER(Run), c_size_t, POINTER(c_size_t)],
    "mtrr_tidy": [POINTER(Words), c_uint8, c_uint64, POINTER(Work), POINTER(Words), POINTER(Two)],
    "mtrr_gran": [POINTER(Words), c_uint64, c_uint8, c_uint64, POINTER(Work), POINTER(Words), POINTER(Two), POINTER(Two), POINTER(Run), c_size_t],
}
assert (ctypes.sizeof(Words), ctypes.sizeof(Work), ctypes.sizeof(Run), ctypes.sizeof(Fault)) == (632, 53752, 24, 8)


def places() -> Iterator[str]:
    """Where the library may be: beside this package as `./install` puts it, beside the installed program, in a clone, or where the
    loader looks."""
    here = pathlib.Path(__file__).resolve().parent
    folders = list(here.parents)[2:3]
    if program := shutil.which("mtrr"):
        folders.append(pathlib.Path(program).resolve().parent.parent / "lib")
    for folder in folders:
        if (folder / SONAME).exists():
            yield str(folder / SONAME)
    for folder in here.parents:
        if (folder / "library/out/libmtrr.so").exists():
            yield str(folder / "library/out/libmtrr.so")
    yield SONAME


def load() -> ctypes.CDLL:
    named = os.environ.get("MTRR_LIBRARY")
    path = named or next(places())
    if "/" in path:
        try:
            if SONAME.encode() + b"\0" not in pathlib.Path(path).read_bytes():
                raise NotFound(f"{path} isn't {SONAME}")
        except OSError as error:
            raise NotFound(f"{path}: {error.strerror}") from None
    try:
        library = ctypes.CDLL(path)
    except OSError as error:
        raise NotFound(f"{error}: install mtrr, run library/build in a clone, or name the library in MTRR_LIBRARY") from None
    for name, arguments in ARGUMENTS.items():
        call = getattr(library, name)
        call.argtypes, call.restype = arguments, ctypes.c_bool if name == "mtrr_is_file" else c_uint32
    return library


def program(name: str) -> str:
    """The path of an installed program, or of a clone's script."""
    found = shutil.which(name)
    if not found:
        tops = [folder for folder in pathlib.Path(__file__).resolve().parents if (folder / "library/build").exists()]
        found = next((shutil.which(str(top / name)) for top in tops), None)
    if not found:
        raise NotFound(f"no program {name}: install mtrr, and have its folder in PATH")
    return found


def shown(text: bytes) -> "subprocess.CompletedProcess[bytes]":
    """What `mtrr show` makes of a text."""
    return subprocess.run([program("mtrr"), "show"], input=text, stdout=subprocess.PIPE, stderr=subprocess.PIPE)


def explain(words: List[str]) -> int:
    """Runs `mtrr-explain`, and returns its status."""
    return subprocess.run([program("mtrr-explain"), *words]).returncode
