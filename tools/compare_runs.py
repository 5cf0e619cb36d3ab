#!/usr/bin/env python3
"""Runs plans on two programs that take `run PLAN`, compares their reports byte for byte, and times both.

usage: tools/compare_runs.py PROGRAM OTHER [PLAN ..] [--random N] [--seed S] [--rounds R]

PROGRAM and OTHER are `smt-lab` and another implementation of the same plans and reports. Each PLAN is run R times (default 1)
on both, in turn, and the best time of each is printed with the cycles and the retired instructions a second. N random plans
(default 0) follow, made from the seed (default 1): random programs in random contexts under random profiles, policies and
targets among them. The status is 0 where all reports are equal.
"""

import argparse
import os
import random
import re
import subprocess
import sys
import tempfile
import time
from typing import Dict, List, NamedTuple, Optional, Tuple

ALU = ("add", "sub", "sll", "slt", "sltu", "xor", "srl", "sra", "or", "and", "addw", "subw", "sllw", "srlw", "sraw")
IMMEDIATE = ("addi", "slti", "sltiu", "xori", "ori", "andi", "addiw")
LOADS = {"lb": 1, "lbu": 1, "lh": 2, "lhu": 2, "lw": 4, "lwu": 4, "ld": 8}
STORES = {"sb": 1, "sh": 2, "sw": 4, "sd": 8}
BRANCHES = ("beq", "bne", "blt", "bge", "bltu", "bgeu")
FETCH = ("RR", "ICOUNT", "BRCOUNT", "MISSCOUNT", "IQPOSN")
ISSUE = ("OLDEST_FIRST", "SPEC_LAST", "BRANCH_FIRST")
RANGES: Dict[str, Tuple[int, int]] = {
    "num2": (1, 8), "rename_width": (1, 8), "issue_width": (1, 8), "retire_width": (1, 16), "issue_queue": (8, 64),
    "reorder_buffer": (8, 64), "load_queue": (4, 32), "store_queue": (4, 32), "extra_registers": (32, 224),
    "front_delay": (1, 8), "alu_latency": (1, 20), "branch_latency": (1, 20), "store_latency": (1, 20),
    "hit_latency": (1, 20), "miss_latency": (1, 200),
}


def operation(rng: random.Random) -> str:
    """One instruction without a label: arithmetic, or a load or store near the start of data, seldom misaligned."""
    rd, first, second = (rng.randint(6, 15) for _ in range(3))
    kind = rng.random()
    if kind < 0.35:
        return f"{rng.choice(ALU)} x{rd}, x{first}, x{second}"
    if kind < 0.6:
        return f"{rng.choice(IMMEDIATE)} x{rd}, x{first}, {rng.randint(-2048, 2047)}"
    table = LOADS if kind < 0.8 else STORES
    name, width = rng.choice(sorted(table.items()))
    offset = rng.randrange(0, 64) * (1 if rng.random() < 0.002 else width)
    return f"{name} x{rd}, {offset}(x5)"


def program(rng: random.Random) -> str:
    """A loop of blocks with branches, a call now and then, and an end: ECALL, EBREAK or an illegal word."""
    lines = ["lui x5, 0x100", f"addi x4, x0, {rng.randint(1, 60)}", "turn:"]
    blocks = rng.randint(1, 6)
    for block in range(blocks):
        lines += [operation(rng) for _ in range(rng.randint(0, 8))]
        if rng.random() < 0.7:
            lines.append(f"{rng.choice(BRANCHES)} x{rng.randint(6, 15)}, x{rng.randint(6, 15)}, skip{block}")
            lines += [operation(rng) for _ in range(rng.randint(0, 4))]
        lines.append(f"skip{block}:")
        if rng.random() < 0.3:
            lines.append("jal ra, leaf")
    lines += ["addi x4, x4, -1", "bnez x4, turn", rng.choice(("ecall", "ebreak", ".word 0", "jr x5"))]
    lines += ["leaf:"] + [operation(rng) for _ in range(rng.randint(0, 3))] + ["ret"]
    data = [f".dword {rng.getrandbits(64)}" for _ in range(64)]
    return "\n".join(lines + [".data"] + data)


def profile(rng: random.Random) -> List[str]:
    """The keys of a profile, of which each may be missing."""
    keys = {"fetch": f'"{rng.choice(FETCH)}"', "issue": f'"{rng.choice(ISSUE)}"', "num1": str(rng.choice((1, 2, 4)))}
    keys.update({key: str(rng.randint(low, high)) for key, (low, high) in RANGES.items()})
    return [f"{key} = {value}" for key, value in keys.items() if rng.random() < 0.8]


def plan(rng: random.Random) -> str:
    """A plan of one to four programs and one to five jobs."""
    names = [f"p{number}" for number in range(rng.randint(1, 4))]
    contexts = ", ".join(f'"{rng.choice(names + [""])}"' for _ in range(rng.randint(1, 8)))
    lines = [f"contexts = [{contexts}]", "[programs]"]
    lines += [f"{name} = '''\n{program(rng)}\n'''" for name in names]
    for _ in range(rng.randint(1, 5)):
        targets = ", ".join(str(rng.choice((0, rng.randint(0, 50), rng.randint(0, 5000), 100000))) for _ in range(rng.randint(4, 8)))
        lines += ["[[jobs]]", f"limit = {rng.choice((0, rng.randint(0, 100)) + (20000,) * 6)}", f"targets = [{targets}]",
                  f'start = "{rng.choice(("opening", "opening", "furthest"))}"', "[jobs.profile]"] + profile(rng)
    return "\n".join(lines) + "\n"


class Ran(NamedTuple):
    """What a program printed, its status, and how many seconds it took."""

    out: bytes
    status: int
    seconds: float


def run(path: str, words: List[str]) -> Ran:
    """One run of a program."""
    begun = time.perf_counter()
    ran = subprocess.run([path] + words, stdout=subprocess.PIPE, stderr=subprocess.DEVNULL, check=False)
    return Ran(ran.stdout, ran.returncode, time.perf_counter() - begun)


def rates(report: bytes, seconds: float) -> str:
    """The cycles and the retired instructions of a report a second."""
    sums = [sum(int(it) for it in re.findall(rb"^job .* %b (\d+)" % key, report, re.M)) for key in (b"cycles", b"retired")]
    return f"{sums[0] / seconds:,.0f} cycles and {sums[1] / seconds:,.0f} instructions a second"


def compare(name: str, path: str, programs: Tuple[str, str], rounds: int, is_timed: bool) -> bool:
    """Whether both programs give one report of a plan; tells the times where they are wanted."""
    best: List[Optional[Ran]] = [None, None]
    for _ in range(rounds):
        for place, it in enumerate(programs):
            ran, kept = run(it, ["run", path]), best[place]
            best[place] = ran if kept is None or ran.seconds < kept.seconds else kept
    one, other = best
    assert one is not None and other is not None
    is_equal = (one.out, one.status) == (other.out, other.status)
    if is_timed:
        print(f"{name}: {'equal' if is_equal else 'DIFFERENT'}")
        for it, kept in zip(programs, (one, other)):
            print(f"    {os.path.basename(it)}: {kept.seconds:.2f} s, {rates(kept.out, kept.seconds)}")
    elif not is_equal:
        print(f"{name}: DIFFERENT, statuses {one.status} and {other.status}")
    return is_equal


def main(words: List[str]) -> int:
    """Compares what the command line names."""
    parser = argparse.ArgumentParser(description=__doc__, formatter_class=argparse.RawDescriptionHelpFormatter)
    parser.add_argument("program")
    parser.add_argument("other")
    parser.add_argument("plans", nargs="*", metavar="PLAN")
    parser.add_argument("--random", type=int, default=0, metavar="N")
    parser.add_argument("--seed", type=int, default=1, metavar="S")
    parser.add_argument("--rounds", type=int, default=1, metavar="R")
    asked = parser.parse_args(words)
    programs = (os.path.abspath(asked.program), os.path.abspath(asked.other))
    equal = [compare(it, it, programs, asked.rounds, True) for it in asked.plans]
    rng = random.Random(asked.seed)
    with tempfile.TemporaryDirectory() as folder:
        for number in range(asked.random):
            path = os.path.join(folder, f"random{number}.toml")
            with open(path, "w", encoding="utf-8") as file:
                file.write(plan(rng))
            equal.append(compare(f"random plan {number} of seed {asked.seed}", path, programs, 1, False))
    print(f"{sum(equal)} of {len(equal)} reports are equal")
    return 0 if equal and all(equal) else 1


if __name__ == "__main__":
    sys.exit(main(sys.argv[1:]))
