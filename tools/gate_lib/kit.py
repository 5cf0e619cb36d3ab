"""The toolchain's command `rt` as a module: its crates, its way of trying one edit, its lanes.

It is loaded from the `rt` on PATH. What is used of it is that of the versions that `KITS` names: under another one the
gate runs plain `rt ci`.
"""

import contextlib
import copy
import importlib.machinery
import importlib.util
import os
import shutil
import subprocess
import sys
import tempfile
import types
from typing import Any, Callable, Dict, List, NamedTuple, Optional, Sequence, Tuple

from gate_lib import output

KITS = ("rattle-kit-13b logic dac8208d650f15bf", "rattle-kit-13f logic dac8208d650f15bf")
# What a try of an edit that is refused comes to: the older of these versions tells whether it is, the newer one how.
REFUSED = (True, "refused", "limit")


class Ran(NamedTuple):
    """What a check ended with, and what it said."""

    status: int
    text: str


def version() -> str:
    """The version of the `rt` on PATH, "" where there is none."""
    try:
        ran = subprocess.run(["rt", "version"], capture_output=True, text=True, check=False)
    except OSError:
        return ""
    return ran.stdout.strip()


class Kit:
    """The crates of a repository, as `rt ci` sees them, and the checks of edited copies of them."""

    def __init__(self, root: str, from_ci: bool) -> None:
        self.rt = load()
        self.lib = self.rt.rtlib
        self.lib.guarded()
        if from_ci:
            # The libraries that `rt ci` leaves hold statements alone, and it alone reads them.
            self.rt.Crate.cuts_libraries = True
            self.rt.Crate.allowed = self.rt.handles_of(root)
            self.lib.Crate = self.rt.Crate
        self.crates: Dict[str, Any] = {it.name: it for it in self.lib.crates_below(root)}

    def builds_below(self, name: str) -> bool:
        """Builds the libraries below a crate where they aren't built; tells whether all are."""
        return not any(it.build_rlib(["--jobs", "1"], anew=False) for it in self.crates[name].below())

    def folder(self, name: str) -> str:
        """The folder of a crate."""
        return self.crates[name].folder

    def edits(self, name: str, root: str) -> Tuple[List[str], List[str]]:
        """The edit files of a crate in a checkout, and the files beside them that are none."""
        folder = f"{root}/crates/{name}"
        good, bad = self.rt.edits_of(types.SimpleNamespace(folder=folder))
        links = [it for it in good if os.path.islink(it)]
        return [it for it in good if it not in links], bad + links

    def read_edit(self, edit: str, folder: str) -> Tuple[Optional[Dict[str, str]], str]:
        """The texts of the files that an edit changes, or why it can't be applied."""
        texts, why = self.rt.read_edit(edit, folder)
        return texts, why or ""

    def checked(self, name: str, texts: Dict[str, str], only: Sequence[str], aside: Sequence[str]) -> Ran:
        """Checks a crate with these texts in place of its own, all of it or only some functions. Those aside come out
        as not proved, and cost next to nothing; what calls them is checked as far as it goes. Where some are aside no
        answers are printed that the others lack, and none of them comes out as proved: the goals that were not proved
        tell."""
        flags = ["--jobs", "1"]
        for function in only:
            flags += ["--only", function.partition("::")[2]]
        with tempfile.TemporaryDirectory(prefix="gate-") as room:
            crate = self.without_proofs(name, aside, room)
            if aside:
                without_offers(only, room)
            ran = self.rt.checked(crate, texts, flags, None)
        return Ran(ran.returncode, ran.stdout)

    def without_proofs(self, name: str, functions: Sequence[str], room: str) -> Any:
        """A crate with these functions' proofs taken away: a copy of it in a folder, where each has a proof file that
        exports nothing."""
        crate = copy.copy(self.crates[name])
        for part in self.lib.PARTS:
            if os.path.isdir(f"{crate.folder}/{part}"):
                shutil.copytree(f"{crate.folder}/{part}", f"{room}/{part}")
        for function in functions:
            folder = folder_of_proof(function, room)
            for file in ("Answers", "Invariants"):
                with contextlib.suppress(FileNotFoundError):
                    os.remove(f"{folder}/{file}.antt")
            with open(f"{folder}/Proof.antt", "w", encoding="utf-8"):
                pass
        crate.folder = room
        return crate

    def is_unread(self, ran: Ran, texts: Dict[str, str]) -> bool:
        """Whether the prover could not read an edited text, or the kept work of a library could not be used."""
        lines = ran.text.split("\n")
        return any(self.rt.unread(it, texts) for it in lines) or self.lib.STALE.search(ran.text) is not None

    def must_fail(self, name: str, edit: str) -> Tuple[bool, str]:
        """Tries one edit in the toolchain's own way, from nothing: whether it is refused, and what to say."""
        tried, said = self.rt.must_fail(self.crates[name], edit, ["--jobs", "1"])
        return is_refusal(tried), said

    def lines(self, name: str) -> int:
        """How many lines a crate has."""
        return self.crates[name].count(rb"\n")

    def lines_with_below(self, name: str) -> int:
        """How many lines a crate and the repository's crates below it have."""
        return sum(self.lines(it.name) for it in [*self.crates[name].below(), self.crates[name]])

    def in_lanes(self, weights: Dict[str, int], call: Callable[[str], Any]) -> Dict[str, Any]:
        """Calls a function for each crate, as many side by side as processors and memory allow, the heaviest first."""
        tasks = {(it, "edits"): ([], weight, self.rt.need(self.crates[it]), lambda given, jobs, at=it: call(at))
                 for it, weight in weights.items()}
        return {key[0]: it for key, it in self.rt.in_lanes(tasks).items()}


def without_offers(functions: Sequence[str], room: str) -> None:
    """Adds to each of these functions' answers, in a copy of a crate, one to a goal that no function has. For a function
    of which no answer is refused the prover prints the answers that it lacks, over a second look at it that takes a
    fifth of a check; the goals that it doesn't prove are told with it or without it."""
    for function in functions:
        folder = folder_of_proof(function, room)
        if not os.path.exists(f"{folder}/Proof.antt"):
            with open(f"{folder}/Answers.antt", "a", encoding="utf-8") as it:
                it.write(f"\npub {output.NO_GOAL} : {output.NO_GOAL}-asked\n{output.NO_GOAL} = tt\n")


def folder_of_proof(function: str, room: str) -> str:
    """The folder of a function's proof files in a copy of its crate, made where there is none."""
    folder = "/".join([room, "proofs", *function.split("::")[1:]])
    os.makedirs(folder, exist_ok=True)
    return folder


def lanes() -> int:
    """How many checks `rt ci` may run side by side, with one job each: one a processor, where each finds 4 GB. By itself
    it gives a check the processors that nothing else takes, and two jobs cost a quarter more than one."""
    rt = load()
    found = rt.processors() if hasattr(rt, "processors") else len(os.sched_getaffinity(0))
    return max(1, min(found, int(rt.free() / 4e9)) if hasattr(rt, "free") else found)


def is_refusal(tried: Any) -> bool:
    """Whether what the toolchain gives of a try of an edit says that it is refused."""
    return tried in REFUSED


def load() -> Any:
    """The `rt` on PATH as a module."""
    sys.dont_write_bytecode = True
    file = os.path.realpath(shutil.which("rt") or "rt")
    loader = importlib.machinery.SourceFileLoader("rt", file)
    spec = importlib.util.spec_from_loader("rt", loader)
    assert spec
    made = importlib.util.module_from_spec(spec)
    loader.exec_module(made)
    return made
