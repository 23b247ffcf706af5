"""The programs `mtrr` and `mtrr-explain`, or a reading with a plant in their place."""
import copy
import json
import os
import re
import subprocess
import tempfile
import threading

from second_reading import BYTES, Reading

TIMEOUT = 120  # seconds


class Program:
    """Asks the built programs, one process a question."""

    def __init__(self, path, explain_path):
        self.path, self.explain_path = path, explain_path
        self.reading = Reading()
        self.mine, self.lock = threading.local(), threading.Lock()
        self.asked = 0

    def count(self):
        with self.lock:
            self.asked += 1

    def run(self, words, data):
        """What `mtrr` writes for these words and bytes, and its status."""
        if not hasattr(self.mine, "input"):
            self.mine.input = tempfile.TemporaryFile(buffering=0)
        self.count()
        self.mine.input.seek(0)
        self.mine.input.truncate()
        self.mine.input.write(data)
        self.mine.input.seek(0)
        try:
            ran = subprocess.run([self.path, *words], stdin=self.mine.input, stdout=subprocess.PIPE, close_fds=False, timeout=TIMEOUT)
        except subprocess.TimeoutExpired:
            return "no end\n", None
        return ran.stdout.decode("latin-1"), ran.returncode

    def ask(self, words, registers):
        return self.run(words, registers.text().encode())

    def explain(self, words, files):
        """What `mtrr-explain` says of each of these files, as JSON; None of each where it doesn't answer all of them."""
        self.count()
        with tempfile.TemporaryDirectory(prefix="mtrr-peers-") as folder:
            paths = [os.path.join(folder, f"{number}") for number in range(len(files))]
            for path, registers in zip(paths, files):
                with open(path, "w") as file:
                    file.write(registers.text())
            try:
                ran = subprocess.run([self.explain_path, *words, "--json", *paths], stdout=subprocess.PIPE, timeout=TIMEOUT)
                said = [json.loads(line) for line in ran.stdout.splitlines()]
                if [one["file"] for one in said] == paths:
                    return [one["cpus"][0] for one in said]
            except (subprocess.TimeoutExpired, ValueError, LookupError, TypeError):
                pass
        return [None] * len(files)


class Remembering(Program):
    """The programs, each asked once of each thing."""

    def __init__(self, path, explain_path):
        super().__init__(path, explain_path)
        self.known = {}

    def run(self, words, data):
        key = (*words, data)
        if key not in self.known:
            self.known[key] = super().run(words, data)
        return self.known[key]

    def explain(self, words, files):
        key = (*words, *(registers.key() for registers in files))
        if key not in self.known:
            self.known[key] = super().explain(words, files)
        return copy.deepcopy(self.known[key])


class Planted(Program):
    """A reading with one wrong cell, which answers in the program's place. It only reads dumps."""

    def __init__(self, program, plant):
        super().__init__(program.path, None)
        self.reading = Reading(plant)

    def ask(self, words, registers):
        return self.reading.of(registers).to(words)


def runs_of(text):
    """The runs that `mtrr types` wrote, as (first page, type)."""
    return [(int(first, 16) >> 12, BYTES[kind]) for first, kind in re.findall(r"^(\w+)-\w+ (\S+)$", text, re.M)]
