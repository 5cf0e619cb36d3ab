#!/usr/bin/env python3
"""Tests of try_docs.py, over documents made here and a program that prints its words."""

import io
import os
import sys
import tempfile
import unittest
from contextlib import redirect_stdout
from typing import Tuple
from unittest import mock

sys.dont_write_bytecode = True
sys.path.insert(0, os.path.dirname(os.path.abspath(__file__)))

import try_docs  # noqa: E402 (found by the line above)

LAB = "import sys\nprint((sys.stdin if sys.argv[1] == '-' else open(sys.argv[1])).read(), end='')\n"
PROGRAM = "#!/bin/sh\nfor word; do echo \"$word\"; done\n"


def tried(document: str) -> Tuple[int, str]:
    """The status and the output over a folder with one document."""
    with tempfile.TemporaryDirectory() as folder:
        program = os.path.join(folder, "program")
        with open(program, "w", encoding="utf-8") as file:
            file.write(PROGRAM)
        os.chmod(program, 0o755)
        os.mkdir(os.path.join(folder, "examples"))
        os.mkdir(os.path.join(folder, "tools"))
        with open(os.path.join(folder, "tools", "lab"), "w", encoding="utf-8") as file:
            file.write(LAB)
        with open(os.path.join(folder, "examples", "one.s"), "w", encoding="utf-8") as file:
            file.write("echo word\n")
        with open(os.path.join(folder, "README.md"), "w", encoding="utf-8") as file:
            file.write(document)
        said = io.StringIO()
        with redirect_stdout(said):
            status = try_docs.main([program, folder])
        return status, said.getvalue()


def block(*lines: str) -> str:
    """A document with one block."""
    return "\n".join(("Text.", "```console") + lines + ("```", "More."))


class Documents(unittest.TestCase):
    """What passes and what fails."""

    def test_a_command_that_prints_what_is_shown(self) -> None:
        self.assertEqual(tried(block("$ ./smt-lab one two", "one", "two"))[0], 0)

    def test_two_commands_of_a_block(self) -> None:
        status, said = tried(block("$ ./smt-lab a", "a", "$ ./smt-lab b", "b"))
        self.assertEqual((status, said), (0, "2 of 2 commands print what the documents show\n"))

    def test_a_command_that_prints_something_else(self) -> None:
        status, said = tried(block("$ ./smt-lab one", "two"))
        self.assertEqual(status, 1)
        self.assertTrue(said.startswith("README.md:3: ./smt-lab one: prints\n    one\n"), said)

    def test_a_line_too_few_and_a_line_too_many(self) -> None:
        self.assertEqual(tried(block("$ ./smt-lab one two", "one"))[0], 1)
        self.assertEqual(tried(block("$ ./smt-lab one", "one", "two"))[0], 1)

    def test_code_that_is_quoted(self) -> None:
        command = block("$ ./smt-lab a", "a")
        self.assertEqual(tried(command + "\n```rust program\n  #!/bin/sh\n```\n")[0], 0)
        self.assertEqual(tried(command + "\n```rust program\n#!/bin/sh\nexit\n```\n")[0], 1)
        status, said = tried(command + "\n```rust none.rt\nexit\n```\n")
        self.assertEqual(status, 1)
        self.assertTrue(said.startswith("README.md:7: none.rt doesn't have these lines\n"), said)

    def test_a_quotation_in_another_language(self) -> None:
        command = block("$ ./smt-lab a", "a")
        self.assertEqual(tried(command + "\n```sh program\n#!/bin/sh\n```\n")[0], 0)
        self.assertEqual(tried(command + "\n```toml program\nexit\n```\n")[0], 1)

    def test_names_and_paths(self) -> None:
        command = block("$ ./smt-lab a", "a")
        for known in ("echo", "examples/one.s", "./examples/one.s", "one.s", "examples/", "examples/one", "echo::word", "a + b"):
            self.assertEqual(tried(command + f"\n`{known}`\n")[0], 0, known)
        for unknown in ("ecko", "examples/two.s", "./two.s", "two.s", "echo::wort"):
            status, said = tried(command + f"\n`{unknown}`\n")
            self.assertEqual(status, 1, unknown)
            self.assertTrue(said.startswith(f"README.md:7: there is no {unknown}\n"), said)

    def test_names_in_a_block_are_not_looked_for(self) -> None:
        self.assertEqual(tried(block("$ ./smt-lab `ecko`", "`ecko`"))[0], 0)

    def test_lines_left_out(self) -> None:
        self.assertEqual(tried(block("$ ./smt-lab a b c d", "a", "..", "d"))[0], 0)
        self.assertEqual(tried(block("$ ./smt-lab a b c d", "a", ".."))[0], 0)
        self.assertEqual(tried(block("$ ./smt-lab a b c d", "b", ".."))[0], 1)
        self.assertEqual(tried(block("$ ./smt-lab a b c d", "a", "..", "c"))[0], 1)

    def test_another_command_is_not_run(self) -> None:
        status, said = tried(block("$ touch file"))
        self.assertEqual((status, said.splitlines()[0]), (1, "README.md:3: touch file: only ./smt-lab and tools/lab are tried"))

    def test_pipes_and_files(self) -> None:
        lines = ("$ ./smt-lab a b > made.txt", "$ tools/lab made.txt", "a", "b", "$ ./smt-lab c d | tools/lab -", "c", "d")
        self.assertEqual(tried(block(*lines))[1], "3 of 3 commands print what the documents show\n")
        self.assertEqual(tried(block("$ ./smt-lab a | touch file", "a"))[0], 1)
        self.assertEqual(tried(block("$ ./smt-lab a |", "a"))[0], 1)

    def test_a_c_file_without_a_compiler(self) -> None:
        document = block("$ ./smt-lab a", "a", "$ tools/lab one.c", "$ ./smt-lab b", "c")
        with mock.patch("try_docs.COMPILER", ("no-such-compiler",)):
            status, said = tried(document)
        self.assertEqual(status, 0)
        self.assertEqual(said, "README.md:5: not tried, nor what comes after it: it needs no-such-compiler on PATH\n"
                               "1 of 1 commands print what the documents show\n")

    def test_no_command_at_all(self) -> None:
        self.assertEqual(tried("Text.\n\n    $ ./smt-lab one\n")[0], 1)


if __name__ == "__main__":
    unittest.main()
