"""The crates of the repository as build tools see them: what a program stands on, copies, and the processor to compile for."""

import hashlib
import os
import re
import shutil
from typing import Dict, Iterator, List, NamedTuple, Optional

TOP = os.path.dirname(os.path.dirname(os.path.abspath(__file__)))
PROGRAM = "smt_lab"
# What a build reads of a crate.
PARTS = ("src", "specs", "proofs")
# The instructions of x86-64-v3. The other ones of that level came with AVX2 or before it.
V3 = ("avx2", "bmi1", "bmi2", "f16c", "fma", "abm", "movbe", "xsave")


class Line(NamedTuple):
    """A line of crates.txt: a crate, the words behind its name, and what it stands on."""

    name: str
    words: str
    below: List[str]


def lines_of(text: str) -> Dict[str, Line]:
    """The lines of crates.txt by the names of their crates."""
    found: Dict[str, Line] = {}
    for line in text.splitlines():
        head, mark, below = line.partition("#")[0].partition(":")
        if mark:
            name, _, words = head.strip().partition(" ")
            found[name] = Line(name, words.strip(), below.split())
    return found


def crates(top: str = TOP) -> Dict[str, Line]:
    """The crates of a checkout."""
    with open(f"{top}/crates.txt", encoding="utf-8") as file:
        return lines_of(file.read())


def needed(name: str, lines: Dict[str, Line]) -> List[str]:
    """A crate and those of the repository that it stands on, in the order of crates.txt."""
    wanted = {name}
    new = [name]
    while new:
        new = [it for it in lines[new.pop()].below if it in lines and it not in wanted] + new
        wanted.update(new)
    return [it for it in lines if it in wanted]


def files_of(names: List[str], top: str = TOP) -> Iterator[str]:
    """The files that a build of these crates reads, from the top folder, in order of name."""
    yield from ("HANDLES", "crates.txt")
    for name in sorted(names):
        for part in PARTS:
            found = []
            for place, _, files in os.walk(f"{top}/crates/{name}/{part}"):
                found += [os.path.relpath(os.path.join(place, it), top) for it in files]
            yield from sorted(found)


def digest(names: List[str], top: str = TOP) -> str:
    """SHA-256 over the digests and the names of the files that a build of these crates reads."""
    whole = hashlib.sha256()
    for path in files_of(names, top):
        with open(f"{top}/{path}", "rb") as file:
            whole.update(f"{hashlib.sha256(file.read()).hexdigest()}  {path}\n".encode())
    return whole.hexdigest()


def copy_crates(names: List[str], to: str, top: str = TOP) -> None:
    """Copies some crates without their edits and what builds keep in them."""
    lines = crates(top)
    os.makedirs(f"{to}/crates")
    for name in names:
        shutil.copytree(f"{top}/crates/{name}", f"{to}/crates/{name}", symlinks=True,
                        ignore=lambda folder, _, at=f"{top}/crates/{name}": ["out", "must-fail"] if folder == at else [])
    if os.path.exists(f"{top}/HANDLES"):
        shutil.copy(f"{top}/HANDLES", to)
    with open(f"{to}/crates.txt", "w", encoding="utf-8") as file:
        for name in names:
            file.write(f"{name}{' ' * bool(lines[name].words)}{lines[name].words}: {' '.join(lines[name].below)}\n")


def processor(text: Optional[str] = None) -> str:
    """The level to compile for: x86-64-v3 where this processor has its instructions, else x86-64-v2. The text is that of
    /proc/cpuinfo."""
    if text is None:
        try:
            with open("/proc/cpuinfo", encoding="utf-8", errors="replace") as file:
                text = file.read()
        except OSError:
            text = ""
    flags = re.search(r"^flags\s*:(.*)$", text, re.M)
    has = set(flags[1].split()) if flags else set()
    return "x86-64-v3" if has.issuperset(V3) else "x86-64-v2"
