"""What the prover says of a function, and whether that is a reason of the function's own.

A function's line says `proved`, or why not: goals of its own that `search` did not prove, answers of its own that were
refused or that name what its body no longer has, or calls of functions that are not proved. Only the last is no reason
of its own. What stands here is the text of the toolchain's versions that `kit.py` names; a line that isn't known is no
reason.
"""

import re
from typing import Dict, List, NamedTuple, Set, Tuple

LINE = re.compile(r"^(?:fn|impl|struct|enum|trait) ([^ ]+): (.*)$")
NOTE = re.compile(
    r"^note: (?:\./)?(src/\S+?):(\d+):\d+: "
    r"(?:it is not proved that |`search` found no proof|index \S+ is out of bounds of )"
)
ERROR = re.compile(r"^\./(proofs/\S+)/(?:Answers|Invariants|Proof)\.antt:\d+:\d+: error: (.*)$")
# An answer that names what an edit took away from the modules that the prover makes of its function's body.
GONE = re.compile(r"(?:record|module) `Rattle\.(\S+?)\.(?:Lts|Goals|Given)[`.]\S*(?: [^`]*?)?(?: \(nearest: [^)]*\))? has no ")
# Where another message, or what is said of a function, begins.
BEGINS = re.compile(r"^(?:\./|(?:note|error|warning|fn|impl|struct|enum|trait|statements|logic|rattle|rt)\b)")
# A goal that no function has, to which each function that is tried has an answer (`kit.without_offers`).
NO_GOAL = "no-goal-of-this-name"
# An answer that wasn't looked at, and one that names what an edit took away: no goal was refused there.
NOT_TRIED = re.compile(r"was not checked|were not checked|has no field|is not in scope|has no `|was not admitted")
CALL = r"it (?:calls|passes the blocks?) `[^;]*, which (?:is|are) not proved"
CALLS = rf"{CALL}(?:; {CALL})*"
OWN = re.compile(
    r"no proof: expected answers in \./proofs/\S+/Answers\.antt; `search` did not prove `[^;]*(?:; " + CALLS + ")?"
    r"|not proved(?:; " + CALLS + ")?"
)
UNPROVED = re.compile(r"not proved(?:; " + CALLS + ")?")
CALLED = re.compile(r"(?:no proof: |not proved; )" + CALLS)
LAST = re.compile(r"logic=not-proved\b.*|only=\d+ proved=\d+")


class Said(NamedTuple):
    """What a check says of one function."""

    line: str
    # Files and lines of the goals that were not proved in it.
    goals: List[Tuple[str, int]]
    # Whether an answer of its own was refused.
    refused_answer: bool
    # Whether an answer of its own names what its body no longer has.
    names_gone: bool

    @property
    def is_proved(self) -> bool:
        """Whether it is proved."""
        return self.line == "proved"

    @property
    def is_called_only(self) -> bool:
        """Whether all that is said against it is what it calls."""
        return CALLED.fullmatch(self.line) is not None and not self.goals and not self.refused_answer

    def calls_one_of(self, functions: Set[str], is_searched: bool = True) -> bool:
        """Whether all that is said against it is what it calls, and one of these is among that; where it isn't searched,
        whether its answers all hold."""
        is_well = self.is_called_only if is_searched else UNPROVED.fullmatch(self.line) and not self.refused_answer
        return bool(is_well) and any(f"`{it}`" in self.line for it in functions)

    def is_own(self, path: str, first: int, last: int) -> bool:
        """Whether it is unproved for a reason of its own, where it stands in these lines of a file."""
        if OWN.fullmatch(self.line) is None:
            return False
        if any(it[0] != path or not first <= it[1] <= last for it in self.goals):
            return False
        return bool(self.goals) or self.refused_answer or self.is_gone_only

    @property
    def refuses_an_answer(self) -> bool:
        """Whether an answer of its own is refused, whatever is said of goals that have none."""
        return OWN.fullmatch(self.line) is not None and self.refused_answer

    @property
    def is_gone_only(self) -> bool:
        """Whether all that is said against it, beside what it calls, is that an answer names what its own body no
        longer has, whatever becomes of what it calls; no goal of its own was refused."""
        return (UNPROVED.fullmatch(self.line) is not None and self.names_gone and not self.goals
                and not self.refused_answer)


def messages(text: str) -> List[str]:
    """The messages of a text, each on one line: the prover breaks a long one, and goes on in the next line."""
    found: List[str] = []
    for line in text.split("\n"):
        if found and line.strip() and not BEGINS.match(line) and not LAST.fullmatch(line):
            found[-1] += " " + line.strip()
        else:
            found.append(line)
    return found


def read(text: str) -> Dict[str, Said]:
    """What a check says of each function, by its name."""
    refused, gone = set(), set()
    for line in messages(text):
        error = ERROR.match(line)
        if error and NO_GOAL in error[2]:
            continue
        if error and not NOT_TRIED.search(error[2]):
            refused.add(error[1])
        missing = GONE.search(error[2]) if error else None
        if error and missing and missing[1].split(".")[1:] == error[1].split("/"):
            gone.add(error[1])
    found: Dict[str, Said] = {}
    goals: List[Tuple[str, int]] = []
    for line in text.split("\n"):
        note, said = NOTE.match(line), LINE.match(line)
        if note:
            goals.append((note[1], int(note[2])))
        elif said:
            if line.startswith("fn "):
                answers = "/".join(["proofs", *said[1].split("::")[1:]])
                found[said[1]] = Said(said[2], goals, answers in refused, answers in gone)
            goals = []
    return found


def is_judged(text: str, status: int) -> bool:
    """Whether a check came to its end and proved not all of it."""
    return status == 1 and LAST.fullmatch(text.rstrip("\n").rpartition("\n")[2]) is not None


def names(text: str) -> List[str]:
    """The functions that a text of the prover's speaks of."""
    return re.findall(r"^fn (\S+): ", text, re.M)
