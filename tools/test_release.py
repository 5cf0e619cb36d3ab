#!/usr/bin/env python3
"""Tests of tools/release, over a stand-in for the program."""

import importlib.machinery
import importlib.util
import io
import os
import shutil
import subprocess
import sys
import tarfile
import tempfile
import unittest
from typing import Any, List

sys.dont_write_bytecode = True
TOOLS = os.path.dirname(os.path.abspath(__file__))

WHOLE = """Simulates a core

Usage: smt-lab <COMMAND>

Commands:
  step  Runs a program
  help  Print this message

Options:
  -h, --help     Print help
  -V, --version  Print version

step reads a program.

Exit status:
  0  done
"""
STEP = """Runs a program

Usage: smt-lab step [OPTIONS] --count <N> <FILE>

Arguments:
  <FILE>  The program: it's text

Options:
      --count <N>  How many
  -h, --help       Print help

-1 isn't a number.
"""
PROGRAM = f"#!/bin/sh\ncase $1 in step) cat <<'END'\n{STEP}END\n;; *) cat <<'END'\n{WHOLE}END\n;; esac\n"


def loaded() -> Any:
    """The tool as a module."""
    loader = importlib.machinery.SourceFileLoader("release", f"{TOOLS}/release")
    spec = importlib.util.spec_from_loader("release", loader)
    assert spec
    made = importlib.util.module_from_spec(spec)
    sys.modules["release"] = made
    loader.exec_module(made)
    return made


release = loaded()


class Releases(unittest.TestCase):
    """What is made of the program and its help."""

    def setUp(self) -> None:
        self.room = tempfile.mkdtemp(prefix="release-")
        self.addCleanup(shutil.rmtree, self.room)
        with open(f"{self.room}/smt-lab", "w", encoding="utf-8") as file:
            file.write(PROGRAM)
        os.chmod(f"{self.room}/smt-lab", 0o755)
        self.commands: List[Any] = release.commands_of(f"{self.room}/smt-lab")

    def test_help(self) -> None:
        whole, step = self.commands
        self.assertEqual((whole.name, whole.about, whole.usage), ("", "Simulates a core", "smt-lab <COMMAND>"))
        self.assertTrue(whole.rest.startswith("step reads a program."))
        self.assertEqual(step.files, [("FILE", "The program: it's text")])
        self.assertEqual(step.options[0], release.Option(("--count",), "N", "How many"))
        self.assertEqual(step.options[1].names, ("-h", "--help"))
        with self.assertRaises(release.Failure):
            release.command_of("step", STEP.replace("--count <N>", "COUNT"))

    def test_man_page(self) -> None:
        page = release.man_page(self.commands, "0.1.0").splitlines()
        for line in (".SH STEP", r".B \-\-count N", r"\-1 isn't a number.", ".I FILE", r".B smt\-lab step [OPTIONS] \-\-count <N> <FILE>"):
            self.assertIn(line, page)
        self.assertEqual(release.troff(".a\n'b\\"), "\\&.a\n\\&'b\\e")

    def test_completions(self) -> None:
        bash, fish = release.bash_completion(self.commands), release.fish_completion(self.commands)
        self.assertIn('step) words="--count -h --help" ;;', bash)
        self.assertIn("complete -c smt-lab -n '__fish_seen_subcommand_from step' -l count -x -d 'How many'", fish)
        self.assertIn("  'step:Runs a program'", release.zsh_completion(self.commands))
        script = bash + "COMP_WORDS=(smt-lab step --c); COMP_CWORD=2; _smt_lab; echo ${COMPREPLY[@]}"
        ran = subprocess.run(["bash", "-c", script], capture_output=True, text=True, check=False)
        self.assertEqual(ran.stdout, "--count\n", ran.stderr)

    def test_archives_are_the_same_twice(self) -> None:
        items = [release.Item("usr/bin/smt-lab", b"GLIBC_2.2.5 GLIBC_2.34 GLIBC_2.4", True), release.Item("usr/a", b"odd")]
        first, second = (release.debian_package(given, "1.0", 1000) for given in (items, items[::-1]))
        self.assertEqual(first, second)
        with tarfile.open(fileobj=io.BytesIO(release.tarball(items, 1000, "./"))) as archive:
            found = [(it.name, it.mode, it.mtime, it.uid) for it in archive.getmembers()]
        self.assertEqual(found, [("./usr", 0o755, 1000, 0), ("./usr/a", 0o644, 1000, 0), ("./usr/bin", 0o755, 1000, 0),
                                 ("./usr/bin/smt-lab", 0o755, 1000, 0)])
        self.assertEqual(release.c_library(items[0].content), "2.34")

    def test_debian_package(self) -> None:
        if not shutil.which("dpkg-deb"):
            self.skipTest("there is no dpkg-deb on PATH")
        with open(f"{self.room}/it.deb", "wb") as file:
            file.write(release.debian_package([release.Item("usr/bin/smt-lab", b"GLIBC_2.34", True)], "1.0", 1000))
        ran = subprocess.run(["dpkg-deb", "-f", f"{self.room}/it.deb", "Package", "Depends"], capture_output=True, text=True, check=False)
        self.assertEqual(ran.stdout, "Package: smt-lab\nDepends: libc6 (>= 2.34)\n", ran.stderr)

    def test_the_gates_lines(self) -> None:
        path = f"{self.room}/log"
        for text, wanted in (("a\n9.0 minutes\n5 passed, 0 failed\n", ["9.0 minutes", "5 passed, 0 failed"]),
                             ("4 passed, 1 failed\n", None), ("", None)):
            with open(path, "w", encoding="utf-8") as file:
                file.write(text)
            if wanted:
                self.assertEqual(release.gate_lines(path), wanted)
            else:
                self.assertRaises(release.Failure, release.gate_lines, path)
        self.assertRaises(release.Failure, release.gate_lines, f"{self.room}/none")


if __name__ == "__main__":
    unittest.main()
