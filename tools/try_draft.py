#!/usr/bin/env python3
"""Makes a draft of `smt-lab`, and compares what it prints with what the proved program prints.

usage: tools/try_draft.py PROGRAM

Both run each plan of examples/plans, and `step` and `asm` of each program of examples. It prints a line for each call that
differs; the status is 0 where none does. Under a kit with which no draft can be made it says so in one line, and the status
is 0: the draft is for a quick look, and no proof rests on it.
"""

import glob
import os
import subprocess
import sys
import tempfile
from typing import Iterator, List, Tuple

TOP = os.path.dirname(os.path.dirname(os.path.abspath(__file__)))
DRAFT = f"{TOP}/tools/draft"
UNMADE = 3
# Enough for each example that ends, and soon over for those that don't.
COUNT = "200000"


def calls() -> Iterator[List[str]]:
    """The words of each call."""
    for plan in sorted(glob.glob(f"{TOP}/examples/plans/*.toml")):
        yield ["run", plan]
    for program in sorted(glob.glob(f"{TOP}/examples/**/*.s", recursive=True)):
        yield ["asm", program]
        yield ["step", program, "--count", COUNT]


def ran(program: str, words: List[str]) -> Tuple[int, bytes, bytes]:
    """A call's status and what it wrote."""
    it = subprocess.run([program, *words], stdin=subprocess.DEVNULL, capture_output=True, check=False)
    return it.returncode, it.stdout, it.stderr


def main(words: List[str]) -> int:
    """Compares the draft with a program."""
    if len(words) != 1 or words[0].startswith("-"):
        print(__doc__, end="", file=sys.stderr)
        return 0 if words in (["-h"], ["--help"]) else 2
    with tempfile.TemporaryDirectory(prefix="draft-") as room:
        made = subprocess.run([DRAFT, "--out", f"{room}/draft"], capture_output=True, text=True, errors="replace", check=False)
        if made.returncode == UNMADE:
            print(f"no draft: {made.stderr.strip().removeprefix('draft: ')}")
            return 0
        if made.returncode:
            print(made.stderr, end="")
            return 1
        listed = list(calls())
        differing = [it for it in listed if ran(f"{room}/draft", it) != ran(os.path.abspath(words[0]), it)]
    for it in differing:
        print(f"the draft differs: smt-lab {' '.join(os.path.relpath(word, TOP) if os.path.exists(word) else word for word in it)}")
    print(f"{len(listed) - len(differing)} of {len(listed)} calls of the draft print what the program prints")
    return 1 if differing else 0


if __name__ == "__main__":
    sys.exit(main(sys.argv[1:]))
