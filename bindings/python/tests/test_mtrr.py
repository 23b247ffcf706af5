"""python3 -m unittest discover -s tests, in bindings/python. It needs the library and the programs."""
import dataclasses
import json
import os
import pathlib
import subprocess
import sys
import threading
import unittest

TOP = pathlib.Path(__file__).resolve().parents[3]
sys.path.insert(0, str(pathlib.Path(__file__).resolve().parents[1]))

import mtrr
from mtrr import MemoryType, Reason, _library

DUMPS = sorted((TOP / "examples").glob("*.dump"))
CLASH = "0fe 508\n200 6\n201 f00000800\n202 c0000001\n203 ff0000800\n2ff 800\n"
WIDE = mtrr.Registers(36, 0x508, ((6, 0xF00000800), *[(0, 0)] * 7), (0,) * 11, 0x0007040600070406, 0x800)


class Answers(unittest.TestCase):
    def test_types(self) -> None:
        self.assertEqual(WIDE.type_at(0xFEE00000), MemoryType.WB)
        self.assertEqual(WIDE.effective_type_at(0xFEE00000, 3), MemoryType.UC)
        self.assertEqual([(run.start, run.end, run.kind) for run in WIDE.types()], [(0, 1 << 32, MemoryType.WB), (1 << 32, 1 << 36, MemoryType.UC)])

    def test_fewest_pairs(self) -> None:
        halves = mtrr.Registers(36, 0x508, ((6, 0xF80000800), (0x80000006, 0xF80000800), *[(0, 0)] * 6), (0,) * 11, WIDE.pat, 0x800)
        tidied = halves.tidy()
        self.assertEqual((tidied.registers, tidied.used, tidied.usable), (WIDE, 1, 7))
        rounded = WIDE.gran(0x1000000)
        self.assertEqual((rounded.used, rounded.lost_pages, rounded.parts), (1, 0, []))
        with self.assertRaises(mtrr.TooFew) as refused:
            WIDE.tidy(spare=8)
        self.assertEqual((refused.exception.needs, refused.exception.has), (1, 0))

    def test_refusals(self) -> None:
        off = mtrr.Registers(36, 0x508, ((0, 0),) * 8, (0,) * 11, WIDE.pat, 0)
        for ask in (lambda: WIDE.type_at(1 << 36), lambda: WIDE.effective_type_at(0, 8), lambda: off.tidy(), lambda: WIDE.gran(5000),
                    lambda: WIDE.type_at(1 << 76), lambda: WIDE.type_at(-1), lambda: WIDE.tidy(spare=256), lambda: WIDE.gran(4096 + (1 << 64))):
            self.assertRaises(mtrr.Error, ask)
        for width, pairs, value in ((31, 8, 0), (36, 7, 0), (36, 8, 1 << 64)):
            with self.assertRaises(mtrr.NotAFile):
                mtrr.Registers(width, 0x508, ((0, value),) * pairs, (0,) * 11, WIDE.pat, 0)

    def test_a_dump_is_read_as_the_program_reads_it(self) -> None:
        clash, = mtrr.parse(CLASH)
        self.assertEqual(clash.faults(), [mtrr.Fault(0x200, Reason.UNDEFINED_OVERLAP)])
        self.assertRaises(mtrr.Error, lambda: clash.type_at(0xC0000000))
        with self.assertRaisesRegex(mtrr.BadDump, "bad text 1:1"):
            mtrr.parse("hello world")
        self.assertEqual(len(mtrr.read(str(TOP / "examples/unlike-cpus.dump"))), 2)
        self.assertEqual(mtrr.parse(b"# \xff\n0fe 0\n2ff 806"), [dataclasses.replace(mtrr.parse("0fe 0")[0], default_type=0x806)])
        for path in DUMPS:
            for cpu in mtrr.read(str(path)):
                self.assertEqual(mtrr.parse(cpu.dump()), [cpu])

    def test_faults_are_those_of_mtrr_explain(self) -> None:
        broken = CLASH.replace("200 6", "200 f02").replace("203 ff0000800", "203 f50000800") + "250 2\n277 ff\n"
        for text in (broken, *(path.read_text() for path in DUMPS)):
            ran = subprocess.run([_library.program("mtrr-explain"), "--json", "faults", "-"], input=text, capture_output=True, text=True)
            cpus = mtrr.parse(text)
            for told in json.loads(ran.stdout)["cpus"]:
                registers, cpu = list(dict.fromkeys(fault["register"]["number"] for fault in told["faults"])), cpus[told["cpu"]]
                self.assertEqual(registers, [f"{fault.register:03x}" for fault in cpu.faults() if fault.reason != Reason.UNDEFINED_OVERLAP])

    def test_threads(self) -> None:
        found = []
        threads = [threading.Thread(target=lambda: found.append([WIDE.tidy().used for _ in range(200)])) for _ in range(4)]
        [thread.start() for thread in threads]
        [thread.join() for thread in threads]
        self.assertEqual(found, [[1] * 200] * 4)


class Program(unittest.TestCase):
    def run_module(self, *words: str, **environment: str) -> "subprocess.CompletedProcess[str]":
        folder = str(pathlib.Path(__file__).resolve().parents[1])
        return subprocess.run([sys.executable, "-m", "mtrr", *words], capture_output=True, text=True, env={**os.environ, "PYTHONPATH": folder, **environment})

    def test_prints_what_mtrr_explain_prints(self) -> None:
        names = [str(path) for path in DUMPS]
        ran = subprocess.run([_library.program("mtrr-explain"), "faults", *names], capture_output=True, text=True)
        self.assertEqual((self.run_module(*names).stdout, self.run_module(*names).returncode), (ran.stdout, ran.returncode))

    def test_says_what_is_missing(self) -> None:
        code = "import mtrr, sys; mtrr.Registers(36, 0, (), (), 0, 0)"
        for path in ("/nowhere/libmtrr.so.2", sys.executable):
            ran = subprocess.run([sys.executable, "-c", code], capture_output=True, text=True, cwd=str(pathlib.Path(mtrr.__file__).parents[1]),
                                 env={**os.environ, "MTRR_LIBRARY": path})
            self.assertRegex(ran.stderr, f"NotFound: {path}")

    def test_example_by_a_stand_in_for_chipsec(self) -> None:
        stand_in = f"""
import sys, types, mtrr
cpus = mtrr.read({str(TOP / "examples/unlike-cpus.dump")!r})
class Cs:
    def init(self, *words): self.msr = self.cpu = self
    def get_cpu_thread_count(self): return len(cpus)
    def cpuid(self, eax, ecx): return cpus[0].width, 0, 0, 0
    def read_msr(self, cpu, number):
        value = dict(cpus[cpu].values())[number]
        return value & 0xffffffff, value >> 32
sys.modules["chipsec"] = chipsec = types.ModuleType("chipsec")
sys.modules["chipsec.chipset"] = chipsec.chipset = types.SimpleNamespace(cs=Cs)
sys.path.insert(0, {str(TOP / "examples/python")!r})
import chipsec_mtrr
sys.exit(chipsec_mtrr.main())
"""
        folder = str(pathlib.Path(mtrr.__file__).parents[1])
        ran = subprocess.run([sys.executable, "-B", "-c", stand_in], capture_output=True, text=True, cwd=folder)
        self.assertEqual(ran.stdout.splitlines()[:2], ["processor 0: 1 of 8 pairs are valid, and 1 would do", "processor 1: 0 of 8 pairs are valid, and 0 would do"])
        self.assertEqual((ran.returncode, len(ran.stdout.splitlines())), (1, 4))


if __name__ == "__main__":
    unittest.main()
