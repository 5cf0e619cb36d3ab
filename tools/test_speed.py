#!/usr/bin/env python3
"""Tests of speed.py, over programs made here and times that are told."""

import io
import os
import sys
import tempfile
import unittest
from contextlib import redirect_stdout
from typing import Dict, List, Sequence, Tuple

sys.dont_write_bytecode = True
sys.path.insert(0, os.path.dirname(os.path.abspath(__file__)))

import speed  # noqa: E402 (found by the line above)

REPORT = """smt-lab report 1
context 0 count 500 running pc 0000000000010000
job 0 opening limit cycles 1000 fetched 9000 renamed 8000 issued 7000 retired 6000 squashed 100 ipc 6000
marks 0 0 0 0 0 0 0 0
"""

BLOCK = "context 0 count 500 running pc 0000000000010000\n"

# Prints the report for `run` and the block for `step`.
PROGRAM = "#!/bin/sh\ncase $1 in\nrun) printf '%s' '" + REPORT + "' ;;\n*) printf '%s' '" + BLOCK + "' ;;\nesac\n"


def tried(programs: Sequence[str], *words: str) -> Tuple[int, str]:
    """The status and the output over programs of these texts."""
    with tempfile.TemporaryDirectory() as folder:
        paths = [os.path.join(folder, f"program{number}") for number in range(len(programs))]
        for path, text in zip(paths, programs):
            with open(path, "w", encoding="utf-8") as file:
                file.write(text)
            os.chmod(path, 0o755)
        said = io.StringIO()
        with redirect_stdout(said):
            status = speed.main([*paths, "--rounds", "1", *words])
        return status, said.getvalue()


def named(seconds: Sequence[float], out: str = REPORT, cells: Tuple[str, ...] = ("mix", "8", "default")) -> speed.Timed:
    """A workload that took these seconds."""
    part = speed.part_of([[it] for it in seconds])
    return speed.Timed(speed.Workload(cells, "", ("run", speed.PLAN)), out, list(seconds), part, [])


class Tables(unittest.TestCase):
    """What the tables say of figures that are told."""

    def test_a_run(self) -> None:
        self.assertEqual(speed.run_table([named([0.5])]).splitlines(), [
            "| Programs | Contexts | Sizes | Retired a cycle | Thousand cycles a second | Thousand instructions a second |",
            "|---|---|---|---|---|---|",
            "| mix | 8 | default | 6.00 | 2 | 12 |",
        ])

    def test_a_run_beside_another_program(self) -> None:
        head, _, row = speed.run_table([named([0.5, 0.25])]).splitlines()
        self.assertTrue(head.endswith("| Other: thousand cycles a second | Part of it |"), head)
        self.assertEqual(row, "| mix | 8 | default | 6.00 | 2 | 12 | 4 | 0.50 |")

    def test_a_step(self) -> None:
        it = named([0.00025], BLOCK, ("bench",))
        self.assertEqual(speed.step_table([it]).splitlines()[-1], "| bench | 2,000 |")

    def test_growth_is_told_against_the_first_row_of_a_structure(self) -> None:
        more = REPORT.replace("issued 7000", "issued 7700")
        rows = speed.growth_table([named([0.5], REPORT, ("issue queue", "2", "8")), named([0.6], more, ("issue queue", "2", "16")),
                                   named([0.2], more, ("issue queue", "8", "8"))]).splitlines()[2:]
        self.assertEqual(rows, ["| issue queue | 2 | 8 | 500.00 | 1.00 | 7.00 | 1.00 |",
                                "| issue queue | 2 | 16 | 600.00 | 1.20 | 7.70 | 1.10 |",
                                "| issue queue | 8 | 8 | 200.00 | 1.00 | 7.70 | 1.00 |"])


class Measuring(unittest.TestCase):
    """How often, in which order, and what is kept of it."""

    def test_programs_take_turns_and_the_least_stands(self) -> None:
        times: Dict[str, List[float]] = {"one": [5.0, 1.0, 2.0], "two": [3.0, 9.0, 4.0]}
        asked: List[Tuple[str, str]] = []

        def runner(program: str, words: Sequence[str]) -> speed.Ran:
            asked.append((program, words[0]))
            return speed.Ran(BLOCK, 0, times[program].pop(0))

        it = speed.Workload(("bench",), "", ("step", "bench.s"))
        timed = speed.measure([it], ["one", "two"], 3, runner)
        self.assertEqual(timed, [speed.Timed(it, BLOCK, [1.0, 3.0], 2.0, [])])
        self.assertEqual(asked, [("one", "step"), ("two", "step")] * 3)

    def test_a_time_is_the_mean_of_the_least_quarter(self) -> None:
        self.assertEqual(speed.undisturbed([9.0]), 9.0)
        self.assertEqual(speed.undisturbed([7.0, 3.0, 8.0, 9.0, 5.0, 6.0, 4.0]), 3.0)
        self.assertEqual(speed.undisturbed([7.0, 3.0, 8.0, 9.0, 5.0, 6.0, 4.0, 99.0]), 3.5)

    def test_a_part_is_the_median_of_the_rounds(self) -> None:
        self.assertEqual(speed.part_of([[2.0, 4.0, 8.0], [1.0, 3.0, 80.0]]), 0.75)
        self.assertEqual(speed.part_of([[2.0, 4.0]]), 1.0)

    def test_a_plan_is_written_for_the_run(self) -> None:
        seen: List[str] = []

        def runner(_: str, words: Sequence[str]) -> speed.Ran:
            with open(words[1], encoding="utf-8") as file:
                seen.append(file.read())
            return speed.Ran(REPORT, 0, 1.0)

        it = speed.run_of(("mix",), ["hanoi", "hanoi"], {"issue_queue": 8}, 70)
        speed.measure([it], ["one"], 1, runner)
        self.assertEqual(seen, [it.plan])

    def test_time_is_the_processors(self) -> None:
        with tempfile.TemporaryDirectory() as folder:
            path = os.path.join(folder, "sleeps")
            with open(path, "w", encoding="utf-8") as file:
                file.write("#!/bin/sh\nsleep 0.5\necho done\nexit 3\n")
            os.chmod(path, 0o755)
            ran = speed.run(path, ["run"])
        self.assertEqual((ran.out, ran.status), ("done\n", 3))
        self.assertLess(ran.seconds, 0.4)


class Plans(unittest.TestCase):
    """The workloads."""

    def test_a_plan(self) -> None:
        text = speed.plan(["hanoi", "stream", "hanoi"], {"issue_queue": 8}, 70)
        self.assertTrue(text.startswith('contexts = ["hanoi", "stream", "hanoi"]\n[programs]\nhanoi = \'\'\'\n'), text)
        self.assertEqual(text.count("'''"), 4)
        end = f"[[jobs]]\nlimit = 70\ntargets = [{speed.TARGET}, {speed.TARGET}, {speed.TARGET}]\n[jobs.profile]\nissue_queue = 8\n"
        self.assertTrue(text.endswith(end), text)

    def test_a_plan_of_a_file(self) -> None:
        with tempfile.TemporaryDirectory() as folder:
            path = os.path.join(folder, "own.toml")
            with open(path, "w", encoding="utf-8") as file:
                file.write('# A comment.\ncontexts = ["a", "", "b",\n  "a"]\n[[jobs]]\nlimit = 7\n')
            it = speed.given(path)
        self.assertEqual((it.cells, it.words), (("own.toml", "3", "its own"), ("run", speed.PLAN)))
        self.assertTrue(it.plan.endswith("limit = 7\n"), it.plan)

    def test_the_workloads_have_names_of_their_own(self) -> None:
        for workloads in (speed.runs(10), speed.steps(10), speed.growths(10)):
            cells = [it.cells for it in workloads]
            self.assertEqual(len(cells), len(set(cells)))

    def test_contexts_and_sizes_of_the_runs(self) -> None:
        cells = [it.cells for it in speed.runs(10)]
        self.assertEqual({it[1] for it in cells}, {"1", "2", "4", "8"})
        self.assertEqual({it[2] for it in cells}, {"small", "default", "large"})


class Program(unittest.TestCase):
    """The whole, over programs that print at once."""

    def test_both_tables(self) -> None:
        status, said = tried([PROGRAM])
        self.assertEqual(status, 0, said)
        self.assertEqual(sum(line.startswith("| mix |") for line in said.splitlines()), 8)
        self.assertIn("| Program | Thousand instructions a second |", said)

    def test_growth(self) -> None:
        status, said = tried([PROGRAM], "--growth")
        self.assertEqual((status, len(said.splitlines())), (0, 19), said)

    def test_plans_stand_in_place_of_the_other_workloads(self) -> None:
        with tempfile.TemporaryDirectory() as folder:
            paths = [os.path.join(folder, name) for name in ("one.toml", "two.toml")]
            for path in paths:
                with open(path, "w", encoding="utf-8") as file:
                    file.write('contexts = ["a"]\n')
            status, said = tried([PROGRAM, PROGRAM], "--plan", *paths)
        self.assertEqual(status, 0, said)
        self.assertEqual([line.split(" | ")[:3] for line in said.splitlines()[2:4]],
                         [["| one.toml", "1", "its own"], ["| two.toml", "1", "its own"]])

    def test_another_program_that_prints_something_else(self) -> None:
        status, said = tried([PROGRAM, PROGRAM.replace("squashed 100", "squashed 101")], "--growth")
        self.assertEqual(status, 1)
        self.assertIn("program1: run issue queue 2 8: prints something else than the first run", said.splitlines())

    def test_a_program_that_fails(self) -> None:
        status, said = tried(["#!/bin/sh\necho refused E1 >&2\nexit 1\n"], "--growth")
        self.assertEqual(status, 1)
        self.assertIn("program0: run issue queue 2 8: status 1: refused E1", said.splitlines())


if __name__ == "__main__":
    unittest.main()
