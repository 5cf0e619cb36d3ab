#!/usr/bin/env python3
"""Runs the commands that the documents show, and compares what they print with what the documents say; and finds the
lines that they quote and the files and names that they name.

usage: tools/try_docs.py PROGRAM [FOLDER]

A command stands in a block that is fenced as `console`, on a line that begins with `$ `; what it prints stands below it,
up to the next command or the block's end. A line `..` there stands for any number of lines. Commands run in the top folder,
with PROGRAM in place of `./smt-lab`; `tools/lab` is tried too, and no other command. Pipes join them, and what `> FILE`
writes stands in a folder of its own, where the later commands of the document find it. A command with a C file needs clang,
lld and make: where one is missing, a line says so, and the rest of the document's commands isn't tried. What is quoted from a file of the folder stands in a
block that is fenced with a language and a path, as `rust PATH` or `toml PATH`, and has to stand in that file, line by line,
with whatever indentation. A path between backticks has to be one of the folder, or the end of one, and a name between
backticks has to stand somewhere in its crates, tools or examples. It prints a line for each command that differs and each
quotation, path or name that isn't found; the status is 0 where there is none, and 1 where there is no command to try.
"""

import glob
import os
import re
import shlex
import shutil
import subprocess
import sys
import tempfile
from typing import Iterator, List, NamedTuple, Set, Tuple

TOP = os.path.dirname(os.path.dirname(os.path.abspath(__file__)))
DOCUMENTS = ("README.md", "docs/*.md", "examples/**/*.md", "crates/*/README.md")
SELF = "./smt-lab"
LAB = "tools/lab"
# What a command with a C file needs on PATH.
COMPILER = ("make", "clang", "ld.lld")
NAMING = ("crates", "tools", "examples", "docs")
PATH = re.compile(r"[\w./-]+\.(?:rt|antt|md|py|edit|toml|report|txt|s|S|c|ld)|[\w.-]+(?:/[\w.-]+)+/?")
NAME = re.compile(r"[A-Za-z_][\w'-]*(?:(?:::|\.)[A-Za-z_][\w'-]*)*")
# Names that documents tell of and the folder doesn't have: of other programs and libraries, of the paper, and those of the
# recipes in docs/architecture.md, which were tried on a copy.
ELSEWHERE = {"clang", "lld", "gcc-riscv64-unknown-elf", "__muldi3", "__divdi3", "items-with_items", "alg.num1.num2", "_tests", "out/smt_lab", "out/draft",
             "FIXED", "YOUNGEST_FIRST", "andn", "fetch_width", "crates/NAME/must-fail/", "proofs/../Answers.antt"}


class Shown(NamedTuple):
    """A command that a document shows, and the lines that it is to print."""

    place: str
    command: str
    lines: List[str]


def blocks(text: str) -> Iterator[Tuple[int, List[str]]]:
    """The blocks that are fenced as `console`, each with the number of its first line."""
    inside, first, held = False, 0, []  # type: bool, int, List[str]
    for number, line in enumerate(text.splitlines(), 1):
        if not inside and line.strip() == "```console":
            inside, first, held = True, number + 1, []
        elif inside and line.strip() == "```":
            inside = False
            yield first, held
        elif inside:
            held.append(line)


def shown_in(name: str, text: str) -> List[Shown]:
    """The commands that a document shows."""
    found: List[Shown] = []
    for first, lines in blocks(text):
        for number, line in enumerate(lines, first):
            if line.startswith("$ "):
                found.append(Shown(f"{name}:{number}", line[2:], []))
            elif found and number > first:
                found[-1].lines.append(line)
    return found


def quoted_in(name: str, text: str) -> List[Shown]:
    """The lines that a document quotes, each with the path of its file for a command."""
    found: List[Shown] = []
    inside = False
    for number, line in enumerate(text.splitlines(), 1):
        words = line.strip().split()
        if not inside and len(words) == 2 and words[0].startswith("```"):
            inside = True
            found.append(Shown(f"{name}:{number}", words[1], []))
        elif inside and line.strip() == "```":
            inside = False
        elif inside:
            found[-1].lines.append(line.strip())
    return found


def is_quoted(it: Shown, folder: str) -> bool:
    """Whether a file has the lines that are quoted from it."""
    try:
        with open(os.path.join(folder, it.command), encoding="utf-8") as file:
            lines = [line.strip() for line in file]
    except OSError:
        return False
    count = len(it.lines)
    return any(lines[start:start + count] == it.lines for start in range(len(lines) - count + 1))


class Names:
    """The paths of a folder, and the words that its files hold."""

    def __init__(self, folder: str) -> None:
        self.paths: Set[str] = set()
        self.words: Set[str] = set()
        for top in NAMING:
            for place, folders, files in os.walk(os.path.join(folder, top)):
                folders[:] = [it for it in folders if it not in ("out", "__pycache__")]
                self.take(folder, place, files)
        self.take(folder, folder, [it for it in ("smt-lab", "crates.txt") if os.path.isfile(os.path.join(folder, it))])

    def take(self, folder: str, place: str, files: List[str]) -> None:
        """The files of one place: the ends of each path, with and without its last suffix, and the words but of documents."""
        for name in files:
            parts = os.path.relpath(os.path.join(place, name), folder).split(os.sep)
            for it in (parts, parts[:-1] + [os.path.splitext(name)[0]]):
                self.paths |= {"/".join(it[start:end]) for end in range(1, len(it) + 1) for start in range(end)}
            if not name.endswith(("try_docs.py", ".md")):
                with open(os.path.join(place, name), encoding="utf-8", errors="replace") as file:
                    text = file.read()
                self.words |= set(re.findall(r"\w+", text)) | set(re.findall(r"[\w'-]+", text))

    def has(self, it: str, place: str) -> bool:
        """Whether there is such a path or name; a path may begin at the document's own place."""
        if it in ELSEWHERE:
            return True
        if PATH.fullmatch(it):
            return os.path.normpath(it) in self.paths or os.path.exists(os.path.join(place, it))
        return not NAME.fullmatch(it) or all(part in self.words for part in re.split(r"::|\.", it))


def named_in(name: str, text: str) -> List[Shown]:
    """The words that a document has between backticks, outside its blocks."""
    found: List[Shown] = []
    inside = False
    for number, line in enumerate(text.splitlines(), 1):
        if line.strip().startswith("```"):
            inside = not inside
        elif not inside:
            found += [Shown(f"{name}:{number}", it, []) for it in re.findall(r"`([^`\s]+)`", line)]
    return found


def is_alike(wanted: List[str], printed: List[str]) -> bool:
    """Whether the lines are those that are wanted, where `..` stands for any number of them."""
    if ".." not in wanted:
        return wanted == printed
    gap = wanted.index("..")
    head, tail = wanted[:gap], wanted[gap + 1:]
    if printed[:gap] != head:
        return False
    return any(is_alike(tail, printed[start:]) for start in range(gap, len(printed) + 1))


class Room:
    """A folder for the files that the commands of one document write."""

    def __init__(self, program: str, folder: str, room: str) -> None:
        self.program, self.folder, self.room = program, folder, room

    def parts_of(self, command: str) -> List[List[str]]:
        """The words of each part of a command that a pipe divides."""
        words = shlex.split(command, comments=True)
        bounds = [-1, *(place for place, it in enumerate(words) if it == "|"), len(words)]
        return [words[start + 1:end] for start, end in zip(bounds, bounds[1:])]

    def run_part(self, words: List[str], given: str) -> Tuple[str, str]:
        """What a part writes to its output, and to standard error."""
        words = [os.path.join(self.room, it) if os.path.isfile(os.path.join(self.room, it)) else it for it in words]
        first = [self.program] if words[0] == SELF else [sys.executable, os.path.join(self.folder, LAB)]
        ran = subprocess.run(first + words[1:], cwd=self.folder, input=given, capture_output=True, text=True, errors="replace",
                             check=False)
        return ran.stdout, ran.stderr

    def differs(self, it: Shown) -> str:
        """What is wrong with a command, or nothing."""
        parts = self.parts_of(it.command)
        written = ""
        if len(parts[-1]) > 2 and parts[-1][-2] == ">":
            written = parts[-1].pop()
            parts[-1].pop()
        if not all(parts) or any(words[0] not in (SELF, LAB) for words in parts):
            return f"only {SELF} and {LAB} are tried"
        out, told = "", ""
        for words in parts:
            out, said = self.run_part(words, out)
            told += said
        if written:
            with open(os.path.join(self.room, os.path.basename(written)), "w", encoding="utf-8") as file:
                file.write(out)
            out = ""
        printed = (out + told).splitlines()
        if is_alike(it.lines, printed):
            return ""
        return "prints\n" + "\n".join(f"    {line}" for line in printed)


def is_untried(it: Shown) -> bool:
    """Whether a command needs a compiler that isn't here."""
    return re.search(r"\.c\b", it.command) is not None and not all(map(shutil.which, COMPILER))


def ready(shown: List[Shown]) -> List[Shown]:
    """The commands of one document up to the first that can't be tried here."""
    for place, it in enumerate(shown):
        if is_untried(it):
            print(f"{it.place}: not tried, nor what comes after it: it needs {', '.join(COMPILER)} on PATH")
            return shown[:place]
    return shown


def tried(shown: List[Shown], program: str, folder: str) -> List[Tuple[Shown, str]]:
    """The commands of one document that differ, and how."""
    with tempfile.TemporaryDirectory(prefix="try-") as room:
        here = Room(program, folder, room)
        return [(it, said) for it in shown for said in [here.differs(it)] if said]


def main(words: List[str]) -> int:
    """Tries the documents of a folder, or of the one that this script stands in."""
    if len(words) not in (1, 2):
        print(__doc__, file=sys.stderr)
        return 2
    program = os.path.abspath(words[0])
    folder = os.path.abspath(words[1]) if len(words) == 2 else TOP
    found: List[Shown] = []
    wrong: List[Tuple[Shown, str]] = []
    quoted: List[Shown] = []
    unknown: List[Shown] = []
    names = Names(folder)
    for pattern in DOCUMENTS:
        for path in sorted(glob.glob(f"{folder}/{pattern}", recursive=True)):
            with open(path, encoding="utf-8") as file:
                text = file.read()
            shown = ready(shown_in(os.path.relpath(path, folder), text))
            found += shown
            wrong += tried(shown, program, folder)
            quoted += quoted_in(os.path.relpath(path, folder), text)
            unknown += [it for it in named_in(os.path.relpath(path, folder), text) if not names.has(it.command, os.path.dirname(path))]
    for it, said in wrong:
        print(f"{it.place}: {it.command}: {said}")
    lost = [it for it in quoted if not is_quoted(it, folder)]
    for it in lost:
        print(f"{it.place}: {it.command} doesn't have these lines")
    for it in unknown:
        print(f"{it.place}: there is no {it.command}")
    print(f"{len(found) - len(wrong)} of {len(found)} commands print what the documents show")
    return 0 if found and not wrong and not lost and not unknown else 1


if __name__ == "__main__":
    sys.exit(main(sys.argv[1:]))
