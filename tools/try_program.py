#!/usr/bin/env python3
"""Runs the program `smt-lab` with words and files of each kind, and compares its streams and its status.

usage: tools/try_program.py PROGRAM

No contract says what reaches a real stream or what a real file holds: this is where `main` is tried. It prints a line
for each case that differs; the status is 0 where none does.
"""

import os
import re
import subprocess
import sys
import tempfile
from typing import Dict, List, NamedTuple, Sequence, Tuple, Union

Word = Union[str, bytes]

TOP = os.path.dirname(os.path.dirname(os.path.abspath(__file__)))
PLANS = os.path.join(TOP, "examples", "plans")
# The longest line of a paragraph that `explain` prints.
WIDTH = 100


def kept(name: str) -> str:
    """A plan, or a report that is kept beside its plan."""
    with open(os.path.join(PLANS, name), encoding="utf-8") as file:
        return file.read()


COUNTDOWN = b".word 0x00A00293\n.word 0xFFF28293\n.word 0xFE029EE3\n.word 0x00000073\n"

LISTING = """0000000000010000 00a00293 addi x5, x0, 10
0000000000010004 fff28293 addi x5, x5, -1
0000000000010008 fe029ee3 bne x5, x0, 0x10004
000000000001000c 00000073 ecall
data 0
"""

BLOCK = """context 0 count 7 running pc 0000000000010004
x5 0000000000000007
memory 02f5d09ff1621d14855098874649f25006641c873b3f01d89c6bef590e7890ad
"""

LONE_ECALL = b"""contexts = ["only"]
[programs]
only = "ecall"
[[jobs]]
limit = 1000
targets = [100]
[jobs.profile]
front_delay = 1
"""

REPORT = """smt-lab report 1
context 0 count 0 stop 8 pc 0000000000010000
memory e41f7967b2a855a3ebd0f9b609fd6a02e4a4c078758a614d669b8b23d14119ee
""" + "".join(f"""context {context} count 0 stop 1 pc 0000000000010000
memory e3b0c44298fc1c149afbf4c8996fb92427ae41e4649b934ca495991b7852b855
""" for context in range(1, 8)) + """job 0 opening reached cycles 3 fetched 1 renamed 1 issued 0 retired 0 squashed 1 ipc 0
marks 0 0 0 0 0 0 0 0
"""

BOUNDS = """job 0 needs 24240 limit 400
job 1 needs 24240 limit 400
job 2 needs 48240 limit 400
job 3 needs 280560 limit 1000
job 4 open
job 5 needs 108240 limit 2000
job 6 needs 24240 limit 0
job 7 needs 10540 limit 2000
job 8 needs 270240 limit 2000
job 9 needs 240240 limit 300
job 10 needs 240240 limit 300
job 11 open
"""


def paragraphs() -> Dict[str, str]:
    """The paragraph of each code, from docs/formats.md."""
    with open(os.path.join(TOP, "docs", "formats.md"), encoding="utf-8") as file:
        return dict(re.findall(r"^\*\*([A-Z]\d)\.\*\* (.*)$", file.read(), re.M))


def closed(plan: str) -> str:
    """A plan with limits that suffice, and with another policy in place of BRANCH_FIRST."""
    return re.sub("limit = [0-9]+", "limit = 1000000", plan).replace("BRANCH_FIRST", "SPEC_LAST")


def blocks(report: str) -> str:
    """A report up to its jobs."""
    return report[:report.index("job 0 ")]


FILES: List[Tuple[Word, bytes]] = [
    ("countdown.s", COUNTDOWN),
    ("halt.s", b".word 0\nhalt\n"),
    ("latin.s", b".word 0 # \xff\n"),
    ("a\nb.s", b"\xc3"),
    ("lone.toml", LONE_ECALL),
    ("closed.toml", closed(kept("twelve.toml")).encode()),
    ("speed.toml", b"speed = 1\n"),
    ("loop.toml", b"[programs]\n\"l\\u0007p\" = \"nop\\nnop\\nj on\"\n"),
]


class Case(NamedTuple):
    """What the program is given, and what it has to write and end with; a text that ends in `..` is a beginning."""

    words: Sequence[Word]
    status: int
    out: str = ""
    err: str = ""
    out_is_full: bool = False


CASES = [
    Case(["asm", "countdown.s"], 0, LISTING),
    Case(["step", "countdown.s", "--count", "7"], 0, BLOCK),
    Case(["step", "countdown.s", "--count", "7", "--with", "4"], 0, BLOCK),
    Case(["step", "countdown.s", "--count", "4", "--with", "7"], 0, BLOCK),
    Case(["asm", "halt.s"], 1, err="refused A1 line 2\n"),
    Case(["step", "halt.s", "--count", "0"], 1, err="refused A1 line 2\n"),
    Case(["asm", "none.s"], 1, err="refused S1 none.s\n"),
    Case(["step", "none.s", "--count", "0"], 1, err="refused S1 none.s\n"),
    Case(["asm", "."], 1, err="refused S1 .\n"),
    Case(["asm", "latin.s"], 1, err="refused S1 latin.s\n"),
    Case(["asm", "a\nb.s"], 1, err="refused S1 a?b.s\n"),
    Case(["asm", "long.s"], 1, err="refused S1 long.s\n"),
    Case(["run", "lone.toml"], 0, REPORT),
    Case(["run", "--workers", "1", "lone.toml"], 0, REPORT),
    Case(["run", os.path.join(PLANS, "twelve.toml")], 0, kept("twelve.report")),
    Case(["run", "closed.toml"], 0, blocks(kept("twelve.report")) + ".."),
    Case(["bound", os.path.join(PLANS, "twelve.toml")], 0, BOUNDS),
    Case(["bound", "lone.toml"], 0, "job 0 needs 3132 limit 1000\n"),
    Case(["bound", "closed.toml"], 0, "job 0 needs 24240 limit 1000000\n.."),
    Case(["bound", "speed.toml"], 1, err="refused J1\n"),
    Case(["bound", "none.toml"], 1, err="refused S1 none.toml\n"),
    Case(["bound", "lone.toml"], 1, err="refused S2 -\n", out_is_full=True),
    Case(["bound", "lone.toml", "--workers", "1"], 2, err="error: .."),
    Case(["run", "speed.toml"], 1, err="refused J1\n"),
    Case(["run", "loop.toml"], 1, err="refused J5 l?p A4 line 3\n"),
    Case(["run", "none.toml"], 1, err="refused S1 none.toml\n"),
    Case(["run", "latin.s"], 1, err="refused S1 latin.s\n"),
    Case(["run", "lone.toml"], 1, err="refused S2 -\n", out_is_full=True),
    Case(["run", "lone.toml", "--workers", "2"], 2, err="error: .."),
    Case(["asm", "countdown.s"], 1, err="refused S2 -\n", out_is_full=True),
    Case(["step", "countdown.s", "--count", "7"], 1, err="refused S2 -\n", out_is_full=True),
    Case(["--help"], 0, "Simulates a simultaneous multithreading out-of-order RV64I core, cycle by cycle\n.."),
    Case(["--version"], 0, "smt-lab 0.1.0\n"),
    Case(["step", "--help"], 0, "Runs a program on plain RV64I and prints its state\n.."),
    Case(["--help"], 1, err="refused S2 -\n", out_is_full=True),
    Case([], 2, err="error: .."),
    Case(["halt"], 2, err="error: unrecognized subcommand 'halt'\n.."),
    Case(["step", "countdown.s"], 2, err="error: .."),
    Case(["step", "countdown.s", "--count", "1099511627777"], 2, err="error: .."),
    Case(["explain", "J3"], 0, "The plan has more than 4096 jobs. Make two plans of it.\n"),
    Case(["explain", "j3"], 0, "The plan has more than 4096 jobs. Make two plans of it.\n"),
    Case(["explain", "J3"], 1, err="refused S2 -\n", out_is_full=True),
    Case(["explain"], 2, err="error: .."),
    Case(["explain", "J1", "J2"], 2, err="error: .."),
    Case(["explain", "Q9"], 2, err=f"""error: invalid value 'Q9' for '<CODE>'
  [possible values: {', '.join(paragraphs())}]
.."""),
    Case(["explain", "--help"], 0, "Says what a code of a refusal means, and what to do\n.."),
    Case(["asm", b"\xff.s"], 2, err="error: invalid UTF-8 was detected in one or more arguments\n"),
]


def is_text(wanted: str, given: str) -> bool:
    """Whether a stream holds what it has to."""
    return given.startswith(wanted[:-2]) if wanted.endswith("..") else given == wanted


def differences(program: str, folder: str, case: Case) -> List[str]:
    """What differs in a case."""
    out = open("/dev/full", "wb") if case.out_is_full else subprocess.PIPE
    ran = subprocess.run([program, *case.words], cwd=folder, stdin=subprocess.DEVNULL, stdout=out,
                         stderr=subprocess.PIPE, check=False)
    if not isinstance(out, int):
        out.close()
    written = (ran.stdout or b"").decode(errors="replace")
    told = ran.stderr.decode(errors="replace")
    found = []
    if ran.returncode != case.status:
        found.append(f"status {ran.returncode} and not {case.status}")
    if not is_text(case.out, written):
        found.append(f"standard output {written!r} and not {case.out!r}")
    if not is_text(case.err, told):
        found.append(f"standard error {told!r} and not {case.err!r}")
    return found


def differing_codes(program: str) -> List[str]:
    """The codes that the program doesn't explain by their paragraphs of docs/formats.md, whatever their lines."""
    found = []
    for code, paragraph in paragraphs().items():
        ran = subprocess.run([program, "explain", code], stdin=subprocess.DEVNULL, capture_output=True, check=False)
        written = ran.stdout.decode(errors="replace")
        lines = written.splitlines()
        if ran.returncode != 0 or not written.endswith("\n") or " ".join(lines) != paragraph or max(map(len, lines)) > WIDTH:
            found.append(code)
    return found


def main(words: List[str]) -> int:
    """Tries all cases in a folder with their files."""
    if len(words) != 1:
        print(__doc__, end="", file=sys.stderr)
        return 2
    program = os.path.abspath(words[0])
    failed = 0
    with tempfile.TemporaryDirectory(prefix="try-") as folder:
        for name, content in FILES:
            with open(os.path.join(folder, os.fsdecode(name)), "wb") as file:
                file.write(content)
        with open(f"{folder}/long.s", "wb") as file:
            file.truncate(64 * 1024 * 1024 + 1)
        for case in CASES:
            found = differences(program, folder, case)
            failed += bool(found)
            for line in found:
                print(f"smt-lab {' '.join(map(repr, case.words))}: {line}")
    differing = differing_codes(program)
    failed += len(differing)
    for code in differing:
        print(f"smt-lab explain {code}: not the paragraph of docs/formats.md")
    print(f"{len(CASES) + len(paragraphs()) - failed} passed, {failed} failed")
    return 1 if failed else 0


if __name__ == "__main__":
    sys.exit(main(sys.argv[1:]))
