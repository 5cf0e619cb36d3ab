"""Processor time by crate: a thread looks twice a second at the provers that run."""

import os
import resource
import threading
import time
from typing import Dict, List, Optional, Set, Tuple

COLUMNS = ("proof", "tests", "edits")
# A process's name, and the words behind it in its file `stat`.
Stat = Tuple[str, List[str]]
TICK = os.sysconf("SC_CLK_TCK")


class Clock:
    """Minutes of processors by crate and column, from `/proc`; what a prover does after the last look isn't counted."""

    def __init__(self) -> None:
        self.is_in_edits = False
        self.spent: Dict[Tuple[int, str], float] = {}
        self.owner: Dict[Tuple[int, str], Tuple[str, str]] = {}
        self.copies: Set[Tuple[int, str]] = set()
        self.begun = time.time()
        self.is_over = threading.Event()
        self.thread = threading.Thread(target=self.look_on, daemon=True)

    def start(self) -> None:
        """Begins to look."""
        self.thread.start()

    def stop(self) -> None:
        """Ends looking."""
        self.is_over.set()
        self.thread.join()

    def look_on(self) -> None:
        """Looks until it is stopped."""
        while not self.is_over.wait(0.5):
            self.look()

    def look(self) -> None:
        """Takes what each prover below this process has used so far, with the copies of itself that it waited for."""
        stats = dict(filter(None, map(stat_of, filter(str.isdigit, os.listdir("/proc")))))
        seen = set()
        for pid, (name, words) in stats.items():
            key = (pid, words[19])
            if name == "rattle" and key not in self.owner and self.is_below(pid, stats):
                of = self.column_of(command_of(pid))
                if of:
                    self.owner[key] = of
            if key in self.owner:
                seen.add(key)
                self.spent[key] = sum(map(int, words[11:15])) / TICK / 60
        # A copy that has ended is in what its maker waited for.
        provers = {pid for pid, _ in self.owner}
        self.copies |= {it for it in seen if int(stats[it[0]][1][1]) in provers}
        for ended in [it for it in self.copies if it not in seen]:
            self.copies.remove(ended)
            del self.spent[ended]

    def is_below(self, pid: int, stats: Dict[int, Stat]) -> bool:
        """Whether a process was started by this one, or by one that it started."""
        while pid in stats and pid != os.getpid():
            pid = int(stats[pid][1][1])
        return pid == os.getpid()

    def column_of(self, words: List[str]) -> Optional[Tuple[str, str]]:
        """The crate and the column that a prover's command line belongs to."""
        if "--crate-name" not in words[:-1]:
            return None
        crate = words[words.index("--crate-name") + 1]
        if self.is_in_edits:
            return crate, "edits"
        return crate, "tests" if "--test" in words else "proof"

    def minutes(self) -> Dict[Tuple[str, str], float]:
        """Minutes by crate and column."""
        found: Dict[Tuple[str, str], float] = {}
        for key, spent in self.spent.items():
            found[self.owner[key]] = found.get(self.owner[key], 0.0) + spent
        return found

    def wall(self) -> float:
        """Minutes since it was made."""
        return (time.time() - self.begun) / 60


def stat_of(pid: str) -> Optional[Tuple[int, Stat]]:
    """A process's number and its file `stat`; None where it has ended."""
    try:
        with open(f"/proc/{pid}/stat", encoding="utf-8", errors="replace") as it:
            name, _, rest = it.read().partition(" (")[2].rpartition(") ")
    except OSError:
        return None
    words = rest.split()
    return (int(pid), (name, words)) if len(words) > 19 else None


def command_of(pid: int) -> List[str]:
    """The words of a process's command line, none where it has ended."""
    try:
        with open(f"/proc/{pid}/cmdline", "rb") as file:
            return file.read().decode(errors="replace").split("\0")
    except OSError:
        return []


def whole() -> float:
    """Minutes of processors that this process and all that it waited for have used, user and system."""
    used = [resource.getrusage(it) for it in (resource.RUSAGE_SELF, resource.RUSAGE_CHILDREN)]
    return sum(it.ru_utime + it.ru_stime for it in used) / 60


def table(minutes: Dict[Tuple[str, str], float]) -> List[str]:
    """The table of minutes by crate, its sums last."""
    names = sorted({name for name, _ in minutes})
    width = max([len(it) for it in names] + [len("crate")])
    row = "{:<" + str(width) + "} {:>7} {:>7} {:>7}"
    lines = [row.format("crate", *COLUMNS) + "   processor minutes"]
    for name in names:
        lines.append(row.format(name, *(f"{minutes.get((name, it), 0.0):.1f}" for it in COLUMNS)))
    sums = [sum(spent for of, spent in minutes.items() if of[1] == it) for it in COLUMNS]
    return lines + [row.format("sum", *(f"{it:.1f}" for it in sums))]
