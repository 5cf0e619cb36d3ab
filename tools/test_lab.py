#!/usr/bin/env python3
"""Tests of tools/lab, over small programs and a stand-in for `smt-lab bound`."""

import importlib.machinery
import importlib.util
import io
import os
import re
import shutil
import sys
import tempfile
import unittest
from contextlib import redirect_stderr, redirect_stdout
from typing import Any, List, Tuple

sys.dont_write_bytecode = True
TOOLS = os.path.dirname(os.path.abspath(__file__))
TOP = os.path.dirname(TOOLS)
sys.path.insert(0, TOOLS)

import test_elf2s  # noqa: E402 (found by the line above)

COUNTDOWN = "addi x5, x0, 10\nagain: addi x5, x5, -1\nbne x5, x0, again\necall\n"
REPORT = """smt-lab report 1
context 0 count 21 stop 8 pc 000000000001000c
memory 02f5d09ff1621d14855098874649f25006641c873b3f01d89c6bef590e7890ad
job 0 opening reached cycles 40 fetched 200 renamed 100 issued 90 retired 60 squashed 50 ipc 1500
marks 40 20 0 0 0 0 0 0
job 1 opening limit cycles 8 fetched 64 renamed 10 issued 6 retired 0 squashed 0 ipc 0
marks 0 0 0 0 0 0 0 0
"""


def loaded() -> Any:
    """The tool as a module."""
    loader = importlib.machinery.SourceFileLoader("lab", f"{TOOLS}/lab")
    spec = importlib.util.spec_from_loader("lab", loader)
    assert spec
    made = importlib.util.module_from_spec(spec)
    sys.modules["lab"] = made
    loader.exec_module(made)
    return made


lab = loaded()


class Rooms(unittest.TestCase):
    """Cases that run the tool in a folder with files."""

    def setUp(self) -> None:
        self.room = tempfile.mkdtemp(prefix="lab-")
        self.addCleanup(shutil.rmtree, self.room)
        self.write("count.s", COUNTDOWN)
        self.write("other.s", "ecall\n")

    def write(self, name: str, text: str) -> str:
        """A file of the room, and its path."""
        with open(f"{self.room}/{name}", "w", encoding="utf-8") as file:
            file.write(text)
        return f"{self.room}/{name}"

    def run_lab(self, *words: str) -> Tuple[int, str, str]:
        """Status, standard output and standard error."""
        out, err = io.StringIO(), io.StringIO()
        with redirect_stdout(out), redirect_stderr(err):
            try:
                status = lab.main([it.replace("ROOM", self.room) for it in words])
            except SystemExit as ended:
                status = int(ended.code or 0)
        return status, out.getvalue(), err.getvalue().replace(self.room, "ROOM")

    def plan(self, *words: str) -> Tuple[Any, str]:
        """The document that `plan` prints, and what it says."""
        status, out, err = self.run_lab("plan", *words)
        self.assertEqual(status, 0, err)
        return lab.read_plan(out, "plan"), err


class Plans(Rooms):
    """What `plan` prints."""

    def test_a_program_alone(self) -> None:
        document, err = self.plan("ROOM/count.s", "--cycles", "500")
        self.assertEqual(err, "")
        self.assertEqual(document["contexts"], ["count"] * 8)
        self.assertEqual(document["programs"], {"count": COUNTDOWN})
        self.assertEqual(document["jobs"], [{"limit": 500, "targets": [1 << 40] * 8}])

    def test_products_of_lists(self) -> None:
        words = ("--set", "issue_queue=8,16", "--set", "fetch=all")
        document, _ = self.plan("ROOM/count.s", *words)
        profiles = [it["profile"] for it in document["jobs"]]
        self.assertEqual(len(profiles), 10)
        self.assertEqual(profiles[0], {"issue_queue": 8, "fetch": "RR"})
        self.assertEqual(profiles[-1], {"issue_queue": 16, "fetch": "IQPOSN"})
        comments = re.findall(r"^# Job .*$", self.run_lab("plan", "ROOM/count.s", *words)[1], re.M)
        self.assertEqual(comments[6], "# Job 6: issue_queue = 16, fetch = ICOUNT.")

    def test_contexts(self) -> None:
        files = ("ROOM/count.s", "ROOM/other.s")
        for words, wanted in (((), ["count", "other"] * 4), (("--contexts", "other"), ["other"]),
                              (("--contexts", "other,,count"), ["other", "", "count"]),
                              (("--contexts", "other,count,count,.."), (["other", "count", "count"] * 3)[:8])):
            document, _ = self.plan(*files, *words)
            self.assertEqual(document["contexts"], wanted)
            self.assertEqual(document["jobs"][0]["targets"], [1 << 40 if it else 0 for it in wanted])

    def test_an_elf_file(self) -> None:
        with open(f"{self.room}/made.elf", "wb") as file:
            file.write(test_elf2s.elf([test_elf2s.segment(0x10000, test_elf2s.words(*test_elf2s.COUNTDOWN))]))
        document, _ = self.plan("ROOM/made.elf")
        self.assertEqual(document["programs"]["made"].splitlines()[0], ".word 0x00A00293")

    def test_a_c_file(self) -> None:
        missing = [it for it in lab.NEEDED["clang"] if not shutil.which(it)]
        if missing:
            self.skipTest(f"there is no {', '.join(missing)} on PATH")
        self.write("here.h", "#define BY 7\n")
        self.write("made.c", '#include "here.h"\nlong main(void) { volatile long x = BY; return x * x / 3; }\n')
        document, _ = self.plan("ROOM/made.c")
        self.assertEqual(document["programs"]["made"].splitlines()[0], "# _start")
        self.write("wrong.c", "long main(void) { return y; }\n")
        status, out, err = self.run_lab("plan", "ROOM/wrong.c")
        self.assertEqual((status, out), (1, ""))
        self.assertIn("undeclared identifier 'y'", err)

    def test_texts_that_need_other_strings(self) -> None:
        for text in ("# it's '''\necall\n", "# a\tb\u00e9\necall\n", "ecall", "# \\ \"\necall\n", "ecall\r\n", "ecall # '"):
            with open(f"{self.room}/odd name.s", "w", encoding="utf-8", newline="") as file:
                file.write(text)
            document, _ = self.plan("ROOM/odd name.s")
            self.assertEqual(document["programs"], {"odd name": text})

    def test_wrong_words(self) -> None:
        for words, wanted in ((("--set", "isue_queue=8"), "there is no key isue_queue; did you mean issue_queue?"),
                              (("--set", "issue_queue=4"), "issue_queue can't be 4: it is 8 to 64"),
                              (("--set", "num1=3"), "num1 can't be 3: it is 1, 2 or 4"),
                              (("--set", "fetch=icount"), "did you mean ICOUNT?"),
                              (("--set", "fetch"), "write --set fetch=VALUE"),
                              (("--set", "num2=1", "--set", "num2=2"), "given twice"),
                              (("--contexts", "cuont"), "did you mean count?"),
                              (("--contexts", ",".join(["count"] * 9)), "1 to 8 contexts"),
                              (("--contexts", ".."), "1 to 8 contexts"),
                              (("ROOM/count.s",), "two files are named count"),
                              (("--closed",), "--closed needs --targets N"),
                              (("--cycles", "many"), "many is no number")):
            status, out, err = self.run_lab("plan", "ROOM/count.s", *words)
            self.assertEqual((status, out), (2, ""), words)
            self.assertIn(wanted, err)

    def test_files_that_are_none(self) -> None:
        self.write("made.elf", "\x7fELF")
        for name, wanted in (("none.s", "lab: ROOM/none.s: No such file or directory\n"),
                             ("made.elf", "lab: ROOM/made.elf: the file is cut off\n")):
            self.assertEqual(self.run_lab("plan", f"ROOM/{name}"), (1, "", wanted))

    def test_slips(self) -> None:
        self.assertIn("job 0 has the limit 0: it runs no cycle", self.plan("ROOM/count.s", "--cycles", "0")[1])
        self.assertIn("job 0 has no target above its start", self.plan("ROOM/count.s", "--targets", "0")[1])


class Closed(Rooms):
    """Limits from `smt-lab bound`."""

    def bound(self, body: str) -> str:
        """A stand-in for the program."""
        path = self.write("program", f"#!/bin/sh\n[ \"$1\" = bound ] && [ -f \"$2\" ] || exit 9\n{body}\n")
        os.chmod(path, 0o755)
        return path

    def test_limits(self) -> None:
        program = self.bound("echo 'job 0 needs 34 limit 5'; echo 'job 1 open'")
        words = ("ROOM/count.s", "--cycles", "5", "--targets", "3", "--set", "issue=OLDEST_FIRST,BRANCH_FIRST", "--closed",
                 "--program", program)
        document, err = self.plan(*words)
        self.assertEqual([it["limit"] for it in document["jobs"]], [34, 5])
        self.assertIn("lab: job 1 has no bound", err)

    def test_what_bound_may_say_else(self) -> None:
        for body, wanted in (("exit 2", "--closed: ROOM/program has no command `bound`"),
                             ("echo 'refused J1' >&2; exit 1", "bound says\nrefused J1"),
                             ("echo 'job 0 open'; echo 'job 1 open'", "bound says\njob 0 open"),
                             (f"echo 'job 0 needs {(1 << 40) + 1} limit 5'", "a limit is at most")):
            program = self.bound(body)
            status, out, err = self.run_lab("plan", "ROOM/count.s", "--targets", "3", "--closed", "--program", program)
            self.assertEqual((status, out), (1, ""))
            self.assertIn(wanted, err)


class Tables(Rooms):
    """What `table` and `check` print."""

    def setUp(self) -> None:
        super().setUp()
        out = self.run_lab("plan", "ROOM/count.s", "ROOM/other.s", "--contexts", "count,other", "--set", "fetch=RR,ICOUNT")[1]
        self.write("plan.toml", out)
        self.write("report", REPORT)

    def lines(self, *words: str) -> List[str]:
        """The lines of the table."""
        status, out, err = self.run_lab("table", "ROOM/plan.toml", "ROOM/report", *words)
        self.assertEqual((status, err), (0, ""))
        return out.splitlines()

    def test_text(self) -> None:
        self.assertEqual(self.lines(), [
            "job  fetch   end      cycles   ipc  0:count  1:other  squashed",
            "  0  RR      reached      40  1.50     1.00     0.50     25.0%",
            "  1  ICOUNT  limit         8  0.00     0.00     0.00      0.0%"])

    def test_other_forms(self) -> None:
        self.assertEqual(self.lines("--csv")[1], "0,RR,reached,40,1.50,1.00,0.50,25.0%")
        self.assertEqual(self.lines("--markdown")[:2], ["| job | fetch | end | cycles | ipc | 0:count | 1:other | squashed |",
                                                        "|---|---|---|---|---|---|---|---|"])

    def test_jobs_without_figures(self) -> None:
        self.write("report", "smt-lab report 1\njob 0 furthest moved\njob 1 refused\n")
        self.assertEqual(self.lines("--csv")[1:], ["0,RR,moved,,,,,", "1,ICOUNT,refused,,,,,"])

    def test_another_plans_report(self) -> None:
        self.write("report", "smt-lab report 1\njob 0 refused\n")
        self.assertEqual(self.run_lab("table", "ROOM/plan.toml", "ROOM/report")[0], 1)
        self.write("report", "refused J1\n")
        self.assertIn("doesn't begin with", self.run_lab("table", "ROOM/plan.toml", "ROOM/report")[2])

    def test_check(self) -> None:
        self.assertEqual(self.run_lab("check", "ROOM/plan.toml"), (0, "", ""))
        self.write("slip.toml", 'context = ["a"]\n[[jobs]]\nlimt = 5\nprofile = { Fetch = "RR" }\n'
                                '[[jobs]]\nlimit = 0\nstart = "furthest"\n')
        status, _, err = self.run_lab("check", "ROOM/slip.toml")
        self.assertEqual(status, 1)
        self.assertEqual(err.splitlines(), [
            "lab: the plan has the key context, which isn't known; did you mean contexts?",
            "lab: job 0 has the key limt, which isn't known; did you mean limit?",
            "lab: job 0 has no limit: write limit = 1000000",
            "lab: job 0 has no target above its start, so it runs no cycle: write targets = [1099511627776]",
            "lab: the profile of job 0 has the key Fetch, which isn't known; did you mean fetch?",
            "lab: job 1 has the limit 0: it runs no cycle"])

    def test_values_of_other_kinds(self) -> None:
        for text, wanted in (('limit = "1000"', "the limit of job 0 is no number"), ("limit = true", "the limit of job 0 is no number"),
                             ("limit = 1.5", "no number"), ("targets = 5", "targets of job 0 aren't a list"),
                             ("targets = [1, -1]", "targets of job 0 aren't a list"), ('start = "last"', "neither opening nor furthest"),
                             ("profile = 1", "the profile of job 0 is no table"), ("profile = { num1 = 3 }", "num1 can't be 3"),
                             ('profile = { fetch = "icount" }', "did you mean ICOUNT?"),
                             ("profile = { fetch = 1 }", "fetch of job 0 is a text between quotes"),
                             ('profile = { issue_queue = "8" }', "issue_queue of job 0 is a number, without quotes")):
            self.write("slip.toml", f"[[jobs]]\n{text}\n")
            self.assertIn(wanted, self.run_lab("check", "ROOM/slip.toml")[2], text)
        for text, wanted in (('contexts = ["sort"]\n[programs]\nsorted = "ecall"', "context 0 names sort, which is no program"),
                             ("contexts = 1", "contexts isn't a list"), ("programs = 1", "programs isn't a table"), ("jobs = 1", "no jobs")):
            self.write("slip.toml", text)
            self.assertIn(wanted, self.run_lab("check", "ROOM/slip.toml")[2], text)

    def test_a_plan_that_is_no_toml(self) -> None:
        self.write("slip.toml", "contexts = [\n[[jobs]]\n")
        status, _, err = self.run_lab("check", "ROOM/slip.toml")
        self.assertEqual(status, 1)
        self.assertRegex(err, r"^lab: ROOM/slip.toml: not TOML: .*line 2")


class Words(Rooms):
    """Help, codes, and what the tool knows of profiles."""

    def test_explain(self) -> None:
        status, out, _ = self.run_lab("explain", "j1")
        self.assertEqual(status, 0)
        self.assertTrue(out.startswith("J1: The text of the plan is no TOML document"), out)
        self.assertTrue(all(len(line) <= 100 for line in out.splitlines()))
        status, out, err = self.run_lab("explain", "Q9")
        self.assertEqual((status, out), (2, ""))
        self.assertIn("there is no code Q9; the codes are A1, A2,", err)

    def test_each_code_of_the_documents_has_a_paragraph(self) -> None:
        with open(f"{TOP}/docs/formats.md", encoding="utf-8") as file:
            text = file.read().partition("## Each code")[0]
        named = set(re.findall(r"^\| ([A-Z]\d)\b", text, re.M)) | set(re.findall(r"\b(P\d) ", text))
        self.assertEqual(named | {f"A{number}" for number in range(1, 9)} | {f"J{number}" for number in range(1, 7)}, set(lab.explanations()))

    def test_help(self) -> None:
        status, out, _ = self.run_lab("--help")
        self.assertEqual(status, 0)
        self.assertIn("tools/lab plan FILE..", out)
        self.assertEqual(self.run_lab("halt")[0], 2)

    def test_the_keys_are_those_of_the_documents(self) -> None:
        with open(f"{TOP}/docs/pipeline.md", encoding="utf-8") as file:
            rows = re.findall(r"^\| `(\w+)` \| (.*?) \| `?.*?`? \| .*\|$", file.read().partition("## Parameters")[2], re.M)
        self.assertEqual([key for key, _ in rows], list(lab.KEYS))
        for key, span in rows:
            allowed = lab.KEYS[key]
            if isinstance(allowed[0], str):
                self.assertEqual(span, ", ".join(f'`"{it}"`' for it in allowed))
            elif key == "num1":
                self.assertEqual(span, "1, 2 or 4")
            else:
                self.assertEqual(span, f"{allowed[0]} to {allowed[1]}")


if __name__ == "__main__":
    unittest.main()
