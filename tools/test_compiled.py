#!/usr/bin/env python3
"""Tests of examples/compiled: each C program is made, and laid out as the simulator needs it.

They need clang with lld, or GCC for riscv64-unknown-elf, and make; each test says what it lacks where one is missing.
What the programs compute is tried by try_docs.py, over the texts that stand in examples/.
"""

import os
import re
import shutil
import subprocess
import sys
import tempfile
import unittest
from typing import List

sys.dont_write_bytecode = True
TOOLS = os.path.dirname(os.path.abspath(__file__))
sys.path.insert(0, TOOLS)

import elf2s  # noqa: E402 (found by the line above)

EXAMPLES = os.path.join(os.path.dirname(TOOLS), "examples")
COMPILED = os.path.join(EXAMPLES, "compiled")
PROGRAMS = ("sort", "fractions", "stack")
STACK_END = 0x110000
NEEDED = {"clang": ("clang", "ld.lld"), "gcc": ("riscv64-unknown-elf-gcc",)}
# The version of clang that made the texts in examples/.
MADE_BY = "clang version 14."


def lacking(compiler: str) -> str:
    """What isn't on PATH of what a compiler needs, or nothing."""
    return ", ".join(it for it in ("make",) + NEEDED[compiler] if not shutil.which(it))


def lines_of(path: str) -> List[str]:
    """The lines of an assembler text that aren't comments."""
    with open(path, encoding="utf-8") as file:
        return [line for line in file.read().splitlines() if not line.startswith("#")]


class Compiled(unittest.TestCase):
    """What the Makefile makes of the C programs."""

    def make(self, compiler: str, folder: str, *words: str) -> None:
        """Runs make in a folder that has the programs; skips the test where the compiler is missing."""
        missing = lacking(compiler)
        if missing:
            self.skipTest(f"there is no {missing} on PATH")
        for name in PROGRAMS:
            shutil.copy(f"{COMPILED}/{name}.c", folder)
        ran = subprocess.run(["make", "-s", "-f", f"{COMPILED}/Makefile", f"COMPILER={compiler}", *words], cwd=folder,
                             capture_output=True, text=True, errors="replace", check=False)
        self.assertEqual(ran.returncode, 0, ran.stdout + ran.stderr)

    def test_each_program_is_taken(self) -> None:
        for compiler in NEEDED:
            with self.subTest(compiler=compiler), tempfile.TemporaryDirectory() as folder:
                self.make(compiler, folder, *(f"{name}.s" for name in PROGRAMS))
                for name in PROGRAMS:
                    self.assertIn(".data", lines_of(f"{folder}/{name}.s"), name)

    def test_data_stand_above_the_stack(self) -> None:
        for compiler in NEEDED:
            with self.subTest(compiler=compiler), tempfile.TemporaryDirectory() as folder:
                self.make(compiler, folder, *(f"{name}.elf" for name in PROGRAMS))
                for name in PROGRAMS:
                    with open(f"{folder}/{name}.elf", "rb") as file:
                        image = file.read()
                    segments = elf2s.read_segments(image, elf2s.read_header(image))
                    places = [(it.address, it.end) for it in elf2s.loaded(segments) if it.rights & elf2s.RIGHT_WRITE]
                    self.assertEqual(places[0], (elf2s.DATA_START, STACK_END), name)
                    self.assertTrue(all(start >= STACK_END for start, _ in places[1:]), name)
                    self.assertTrue(any(elf2s.read_program(image).text), name)

    def test_the_texts_in_examples_are_what_clang_makes(self) -> None:
        ran = subprocess.run(["clang", "--version"], capture_output=True, text=True, check=False) if shutil.which("clang") else None
        if not ran or MADE_BY not in ran.stdout:
            self.skipTest(f"the texts were made by {MADE_BY}x, which isn't here")
        with tempfile.TemporaryDirectory() as folder:
            self.make("clang", folder, *(f"{name}.s" for name in PROGRAMS))
            for name in PROGRAMS:
                self.assertEqual(lines_of(f"{folder}/{name}.s"), lines_of(f"{EXAMPLES}/{name}.s"), name)
            self.make("clang", folder, "-B", "stack.s", "OPTIMIZE=-O2 -DDEPTH=4000")
            self.assertEqual(lines_of(f"{folder}/stack.s"), lines_of(f"{EXAMPLES}/overflow.s"))

    def test_the_plan_has_the_text_that_stands_beside_it(self) -> None:
        with open(f"{EXAMPLES}/plans/eight.toml", encoding="utf-8") as file:
            found = re.search(r"^sort = '''\n(.*?)^'''$", file.read(), re.M | re.S)
        with open(f"{EXAMPLES}/sort.s", encoding="utf-8") as file:
            self.assertEqual(found and found[1], file.read())


if __name__ == "__main__":
    unittest.main()
