#!/usr/bin/env python3
"""Times `run` and `step`, and prints tables in Markdown.

usage: tools/speed.py PROGRAM [OTHER] [--growth] [--plan FILE ..] [--rounds R] [--cycles C] [--count N]

PROGRAM is `smt-lab`, best as out/smt_lab, which tools/build makes: `./smt-lab` looks for changed sources first. OTHER is another
program with the same commands: it is timed in turn with PROGRAM, and has to print the same. Each workload runs R times
(default 8) on each program, all workloads in turn. A run's time is that of the processor, user and system, for the whole
process, its start and the reading of its file included; a time in the tables is the mean of the least quarter of R, since
what else a machine does only adds to a run. What part of OTHER's speed PROGRAM has is told round by round, of two runs
one right behind the other, and the tables have the median: other work slows both. `run` takes C cycles (default 300000)
of the programs of examples/mix, which don't end, `step` N instructions (default 100000000).

With --plan the workloads are the jobs of these plans alone, as long as each says; a plan is named by its file.

With --growth a cycle is timed over 8, 16, 32 and 64 places of the issue queue, and of the reorder buffer, beside the
instructions that issue in it, all else by default, at two contexts and at eight.

The status is 0 where all runs succeed and both programs print the same.
"""

import argparse
import os
import re
import statistics
import subprocess
import sys
import tempfile
from typing import Callable, Dict, List, NamedTuple, Sequence, Tuple

TOP = os.path.dirname(os.path.dirname(os.path.abspath(__file__)))
MIX = ("collatz", "hanoi", "stream", "xorshift")
CONTEXTS = 8
TARGET = 1 << 40
# Stands among a workload's words for the path of its plan.
PLAN = "PLAN"

SIZES: Dict[str, Dict[str, int]] = {
    "small": {"issue_queue": 8, "reorder_buffer": 8, "load_queue": 4, "store_queue": 4, "extra_registers": 32},
    "default": {},
    "large": {"issue_queue": 64, "reorder_buffer": 64, "load_queue": 32, "store_queue": 32, "extra_registers": 224},
}


class Workload(NamedTuple):
    """What is timed: the cells that name it in a table, the plan to run or the file to step, and the words."""

    cells: Tuple[str, ...]
    plan: str
    words: Tuple[str, ...]


class Ran(NamedTuple):
    """What a process printed, its status, and the seconds of a processor that it took."""

    out: str
    status: int
    seconds: float


class Timed(NamedTuple):
    """A workload's output, its time on each program (`undisturbed`), what part of the second program's speed the first one
    has (`part_of`), and what went wrong."""

    workload: Workload
    out: str
    seconds: List[float]
    part: float
    wrong: List[str]


def source(name: str) -> str:
    """The assembler text of a program of the mix."""
    with open(os.path.join(TOP, "examples", "mix", f"{name}.s"), encoding="utf-8") as file:
        return file.read()


def plan(names: Sequence[str], sizes: Dict[str, int], cycles: int) -> str:
    """A plan of one job: a program at each context from 0, for so many cycles."""
    programs = [f"{name} = '''\n{source(name)}'''" for name in dict.fromkeys(names)]
    listed = ", ".join(f'"{name}"' for name in names)
    targets = ", ".join([str(TARGET)] * len(names))
    job = ["[[jobs]]", f"limit = {cycles}", f"targets = [{targets}]", "[jobs.profile]"]
    keys = [f"{key} = {value}" for key, value in sizes.items()]
    return "\n".join([f"contexts = [{listed}]", "[programs]"] + programs + job + keys) + "\n"


def run_of(cells: Tuple[str, ...], names: Sequence[str], sizes: Dict[str, int], cycles: int) -> Workload:
    """A workload of the command `run`."""
    return Workload(cells, plan(names, sizes, cycles), ("run", PLAN))


def mix_at(contexts: int) -> List[str]:
    """The programs of the mix at so many contexts, one after another."""
    return [MIX[context % len(MIX)] for context in range(contexts)]


def runs(cycles: int) -> List[Workload]:
    """The workloads of `run`: each program alone, and their mix at more and more contexts, in three sizes."""
    alone = [run_of((name, "8", "default"), [name] * CONTEXTS, SIZES["default"], cycles) for name in MIX]
    mixes = [(contexts, size) for size in SIZES for contexts in (1, 2, 4, 8) if size == "default" or contexts in (1, 8)]
    return alone + [run_of(("mix", str(contexts), size), mix_at(contexts), SIZES[size], cycles) for contexts, size in mixes]


def given(path: str) -> Workload:
    """The workload of `run` that a plan's file is: told how many contexts have a program, and by no size of ours."""
    with open(path, encoding="utf-8") as file:
        text = file.read()
    listed = re.search(r"^contexts = \[(.*?)\]", text, re.M | re.S)
    contexts = len([it for it in re.findall(r'"(.*?)"', listed[1]) if it]) if listed else 0
    return Workload((os.path.basename(path), str(contexts), "its own"), text, ("run", PLAN))


def steps(count: int) -> List[Workload]:
    """The workloads of `step`: the programs of the mix, and the loop that is made for it."""
    names = ["bench"] + [f"mix/{name}" for name in MIX]
    paths = [os.path.join(TOP, "examples", f"{name}.s") for name in names]
    return [Workload((os.path.basename(path)[:-2],), "", ("step", path, "--count", str(count))) for path in paths]


def growths(cycles: int) -> List[Workload]:
    """The mix over more and more places of one structure, all else by default."""
    return [run_of((name, str(contexts), str(places)), mix_at(contexts), {key: places}, cycles)
            for key, name in (("issue_queue", "issue queue"), ("reorder_buffer", "reorder buffer"))
            for contexts in (2, CONTEXTS) for places in (8, 16, 32, 64)]


def run(program: str, words: Sequence[str]) -> Ran:
    """One run of a program."""
    started = subprocess.Popen([program, *words], stdin=subprocess.DEVNULL, stdout=subprocess.PIPE,
                               stderr=subprocess.STDOUT, text=True, errors="replace")
    assert started.stdout is not None
    with started.stdout:
        out = started.stdout.read()
    _, status, used = os.wait4(started.pid, 0)
    started.returncode = os.waitstatus_to_exitcode(status)
    return Ran(out, started.returncode, used.ru_utime + used.ru_stime)


def measure(workloads: Sequence[Workload], programs: Sequence[str], rounds: int,
            runner: Callable[[str, Sequence[str]], Ran] = run) -> List[Timed]:
    """The times of all workloads: each round runs each workload on each program."""
    kept: List[List[List[Ran]]] = [[[] for _ in programs] for _ in workloads]
    with tempfile.TemporaryDirectory() as folder:
        paths = [os.path.join(folder, f"{number}.toml") for number in range(len(workloads))]
        for it, path in zip(workloads, paths):
            with open(path, "w", encoding="utf-8") as file:
                file.write(it.plan)
        for _ in range(rounds):
            for it, path, ran in zip(workloads, paths, kept):
                words = [path if word == PLAN else word for word in it.words]
                for program, held in zip(programs, ran):
                    held.append(runner(program, words))
    timed = []
    for it, ran in zip(workloads, kept):
        times = [[one.seconds for one in held] for held in ran]
        timed.append(Timed(it, ran[0][0].out, [undisturbed(held) for held in times], part_of(times), faults(it, programs, ran)))
    return timed


def undisturbed(times: Sequence[float]) -> float:
    """The mean of the least quarter of some times, of one at least."""
    return statistics.mean(sorted(times)[:max(len(times) // 4, 1)])


def part_of(times: Sequence[Sequence[float]]) -> float:
    """What part of the last program's speed the first one has, by the median of the rounds."""
    return statistics.median(last / max(first, 1e-9) for first, last in zip(times[0], times[-1]))


def faults(it: Workload, programs: Sequence[str], ran: Sequence[Sequence[Ran]]) -> List[str]:
    """What went wrong with a workload: runs that failed, and those that print something else than the first one."""
    found = []
    for program, held in zip(programs, ran):
        said = f"{os.path.basename(program)}: {it.words[0]} {' '.join(it.cells)}"
        failed = next((one for one in held if one.status), None)
        if failed:
            found.append(f"{said}: status {failed.status}: {failed.out.strip()}")
        elif any(one.out != ran[0][0].out for one in held):
            found.append(f"{said}: prints something else than the first run")
    return found


def figure(out: str, name: str) -> int:
    """A figure of a report's first job."""
    found = re.search(rf"^job 0 .*\b{name} (\d+)", out, re.M)
    return int(found[1]) if found else 0


def performed(out: str) -> int:
    """How many instructions a block's context performed."""
    found = re.search(r"^context 0 count (\d+)", out, re.M)
    return int(found[1]) if found else 0


def rate(count: int, seconds: float) -> float:
    """How many there are a second, in thousands."""
    return count / max(seconds, 1e-9) / 1000


def table(head: Sequence[str], rows: Sequence[Sequence[str]]) -> str:
    """A table in Markdown."""
    lines = ["| " + " | ".join(line) + " |" for line in [head, *rows]]
    return "\n".join([lines[0], "|" + "---|" * len(head)] + lines[1:])


def of_other(count: int, it: Timed) -> List[str]:
    """The rate of the other program, and what part of it the first one has."""
    return [f"{rate(count, it.seconds[1]):,.0f}", f"{it.part:.2f}"] if len(it.seconds) > 1 else []


def run_table(timed: Sequence[Timed]) -> str:
    """The table of `run`."""
    head = ["Programs", "Contexts", "Sizes", "Retired a cycle", "Thousand cycles a second", "Thousand instructions a second"]
    rows = []
    for it in timed:
        cycles, retired = figure(it.out, "cycles"), figure(it.out, "retired")
        rows.append([*it.workload.cells, f"{retired / max(cycles, 1):.2f}", f"{rate(cycles, it.seconds[0]):,.0f}",
                     f"{rate(retired, it.seconds[0]):,.0f}", *of_other(cycles, it)])
    return table(head + other_head(timed, "cycles"), rows)


def step_table(timed: Sequence[Timed]) -> str:
    """The table of `step`."""
    rows = []
    for it in timed:
        count = performed(it.out)
        rows.append([*it.workload.cells, f"{rate(count, it.seconds[0]):,.0f}", *of_other(count, it)])
    return table(["Program", "Thousand instructions a second"] + other_head(timed, "instructions"), rows)


def other_head(timed: Sequence[Timed], what: str) -> List[str]:
    """The heads of the other program's columns, where there is one."""
    return [f"Other: thousand {what} a second", "Part of it"] if timed and len(timed[0].seconds) > 1 else []


def growth_table(timed: Sequence[Timed]) -> str:
    """The table of the growth: times and entries against the row of a structure's fewest places."""
    head = ["Structure", "Contexts", "Places", "Microseconds a cycle", "Times that of 8", "Issued a cycle", "Times that of 8"]
    rows = []
    first: Dict[Tuple[str, ...], Tuple[float, float]] = {}
    for it in timed:
        cycles = max(figure(it.out, "cycles"), 1)
        time, issued = it.seconds[0] / cycles * 1e6, figure(it.out, "issued") / cycles
        base = first.setdefault(it.workload.cells[:-1], (max(time, 1e-9), max(issued, 1e-9)))
        rows.append([*it.workload.cells, f"{time:.2f}", f"{time / base[0]:.2f}", f"{issued:.2f}", f"{issued / base[1]:.2f}"])
    return table(head, rows)


def main(words: Sequence[str]) -> int:
    """Times what the command line asks for."""
    parser = argparse.ArgumentParser(description=__doc__, formatter_class=argparse.RawDescriptionHelpFormatter)
    parser.add_argument("program")
    parser.add_argument("other", nargs="?")
    parser.add_argument("--growth", action="store_true")
    parser.add_argument("--plan", nargs="+", default=[], metavar="FILE")
    parser.add_argument("--rounds", type=int, default=8, metavar="R")
    parser.add_argument("--cycles", type=int, default=300000, metavar="C")
    parser.add_argument("--count", type=int, default=100000000, metavar="N")
    asked = parser.parse_args(words)
    programs = [os.path.abspath(it) for it in (asked.program, asked.other) if it]
    parts = [(runs(asked.cycles), run_table), (steps(asked.count), step_table)]
    if asked.plan:
        parts = [([given(it) for it in asked.plan], run_table)]
    elif asked.growth:
        parts = [(growths(asked.cycles), growth_table)]
    wrong: List[str] = []
    for workloads, shown in parts:
        timed = measure(workloads, programs, max(asked.rounds, 1))
        print(shown(timed) + "\n", flush=True)
        wrong += [line for it in timed for line in it.wrong]
    print("\n".join(wrong), end="\n" if wrong else "")
    return 1 if wrong else 0


if __name__ == "__main__":
    sys.exit(main(sys.argv[1:]))
