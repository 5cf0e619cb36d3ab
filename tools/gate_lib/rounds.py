"""A crate's must-fail edits, tried together in rounds.

A round's check has at most one edit of each function. An edit is refused there where its own function isn't proved for
a reason of its own: what a function calls is cited by its contract, which an edit of a body leaves as it is. So a
round leaves the bodies and proofs of all other functions aside, since `rt ci` has proved them, and has no answers
printed that the tried ones lack.

A function that has answers is first checked by these alone, with nothing searched for its other goals: an edit is
refused there where an answer no longer fits its goal. What isn't certified so, and what `must-fail/with_search.md` names
since it won't be, is tried in a round with search, then in one with the proofs of the others too, and at last alone; so
is each edit that isn't one of a single function's body, and each of a function in a cycle of calls, whose proofs are
one. Alone, first the functions that most likely show an edit are checked (its own, those that name the constant that it
changes, or those of its file), in both ways, and where these are proved the whole crate is, in the toolchain's own way:
there an edit is refused where anything isn't proved.

Each check begins from nothing, and keeps nothing: one that keeps its work sorts it into parts first, which takes a tenth
of a round.
"""

import enum
import os
import tempfile
from typing import Any, Callable, Dict, List, NamedTuple, Optional, Sequence, Set, Tuple

from gate_lib import edits as edits_of_text
from gate_lib import output
from gate_lib.edits import Edit, Placed


class Stage(enum.IntEnum):
    """How an edit is tried in a round, from the cheapest way on."""

    # By the answers of its function, with nothing searched and all other functions aside.
    ANSWERS = 0
    # With search, all other functions aside.
    SEARCH = 1
    # With search and the proofs of all others.
    ALL = 2


class Result(NamedTuple):
    """What became of an edit."""

    label: str
    refused: bool
    said: str
    # Whether it is refused only because an answer names what it took away, which says little of the contract.
    only_a_name: bool = False


class Plant(NamedTuple):
    """What became of the edit that changes nothing."""

    label: str
    # Whether a round had it beside an edit of what it calls.
    was_beside: bool
    # Whether it came out as not refused.
    was_found: bool


class Tried(NamedTuple):
    """What became of a crate's edits, and of the edit that changes nothing where one was planted there."""

    results: List[Result]
    plant: Optional[Plant]


class Trial:
    """The edits of one crate, on their way through the rounds."""

    def __init__(self, kit: Any, crate: str, known: Sequence[str], tell: Callable[[str], None]) -> None:
        self.kit, self.crate, self.known, self.tell = kit, crate, known, tell
        self.folder = kit.folder(crate)
        self.results: List[Result] = []
        self.alone: List[str] = []
        self.together: List[Edit] = []
        # Each edit's name by its file.
        self.labels: Dict[str, str] = {}
        # How each edit is tried next, by its file.
        self.stages: Dict[str, Stage] = {}
        # The functions that an edit is tried on when it is alone, by its file.
        self.near: Dict[str, List[str]] = {}
        self.plant: Optional[Edit] = None
        self.was_beside = False
        self.plant_found = False

    def sort_out(self, files: Sequence[str]) -> None:
        """Reads the edits, and tells which can be tried together."""
        cycles = edits_of_text.in_cycles(self.crate, self.folder)
        for file in files:
            label = self.labels[file] = f"{self.crate}/{os.path.basename(file)}"
            texts, why = self.kit.read_edit(file, self.folder)
            if texts is None:
                self.results.append(Result(label, False, f"BAD EDIT: {why}"))
                continue
            edit = edits_of_text.in_one_function(self.crate, self.folder, file, label, texts, self.known)
            if edit:
                self.near[file] = [edit.function]
                if edit.function in cycles:
                    self.alone.append(file)
                else:
                    self.together.append(edit)
            else:
                self.alone.append(file)
                self.near[file] = edits_of_text.functions_near(self.crate, self.folder, texts, self.known)

    def put_plant(self, room: str) -> bool:
        """Puts an edit that changes nothing before the others; tells whether the crate has a place for one."""
        self.plant = edits_of_text.harmless(self.crate, self.folder, room, self.together, self.known)
        if self.plant:
            self.together.insert(0, self.plant)
        return self.plant is not None

    def run(self) -> None:
        """Tries all."""
        number = 0
        while self.together:
            number += 1
            self.round(number)
        for file in self.alone:
            self.try_alone(file)

    def round(self, number: int) -> None:
        """Tries one edit of each function, those that cost least, and certifies what it can."""
        is_last = all(self.stage(it) == Stage.ALL for it in self.together)
        now: Dict[str, Edit] = {}
        for edit in self.together:
            if is_last or self.stage(edit) != Stage.ALL:
                now.setdefault(edit.function, edit)
        unsearched = [it for it in now.values() if self.stage(it) == Stage.ANSWERS]
        texts, placed = edits_of_text.together(self.folder, list(now.values()), unsearched)
        ran = self.checked(texts, sorted(now), [] if is_last else self.others(sorted(now)))
        is_judged = output.is_judged(ran.text, ran.status) and not self.kit.is_unread(ran, texts)
        said = output.read(ran.text)
        for it in placed:
            self.together.remove(it.edit)
            if it.edit is self.plant and it.edit.function in said:
                self.was_beside |= said[it.edit.function].calls_one_of(set(now) - {it.edit.function},
                                                                       it.edit not in unsearched)
            if not (is_judged and self.certify(it, said)):
                self.wait(it.edit, is_judged, said.get(it.edit.function))
        refused = sum(it.refused for it in self.results)
        self.tell(f"round {number}: {len(now)} edits tried, {refused} refused so far, {len(self.together)} to come, "
                  f"{len(self.alone)} to be tried alone")

    def stage(self, edit: Edit) -> Stage:
        """How an edit is tried next."""
        if edit.file not in self.stages:
            by_answers = edits_of_text.has_answers(self.folder, edit.function) and not edits_of_text.wants_search(edit.file)
            self.stages[edit.file] = Stage.ANSWERS if by_answers else Stage.SEARCH
        return self.stages[edit.file]

    def others(self, only: List[str]) -> List[str]:
        """The functions that needn't be proved to see whether some are."""
        return edits_of_text.aside(self.crate, self.folder, only, self.known)

    def checked(self, texts: Dict[str, str], only: List[str], aside: List[str]) -> Any:
        """Checks some functions with these texts in place of the crate's own, without the bodies and proofs of those
        aside; returns what it said."""
        texts = edits_of_text.without_bodies(self.crate, self.folder, texts, aside, self.known)
        return self.kit.checked(self.crate, texts, only, aside)

    def certify(self, placed: Placed, said: Dict[str, output.Said]) -> bool:
        """Counts an edit as refused where its function, or a closure in it, is unproved for a reason of its own."""
        edit = placed.edit
        for name, it in said.items():
            is_its = name == edit.function or name.startswith(edit.closures)
            if is_its and self.is_own(it, placed):
                if edit is self.plant:
                    return True
                why = " (only because an answer names what the edit took away)" if it.is_gone_only else ""
                self.results.append(Result(edit.label, True, f"refused, as it must be: {name}: {it.line}{why}", it.is_gone_only))
                return True
        return False

    def is_own(self, it: output.Said, placed: Placed) -> bool:
        """Whether what is said of a function with an edit in it, or of a closure in it, is a reason of its own."""
        if self.stage(placed.edit) == Stage.ANSWERS:
            return it.refuses_an_answer
        return it.is_own(placed.edit.path, placed.first, placed.last)

    def wait(self, edit: Edit, is_judged: bool, said: Optional[output.Said]) -> None:
        """Puts an edit that wasn't certified behind the others, or gives it up for the rounds."""
        stage = self.stage(edit)
        may_change = not is_settled(said) and not (edit is self.plant and self.was_beside)
        if is_judged and (stage == Stage.ANSWERS or stage == Stage.SEARCH and may_change):
            self.stages[edit.file] = Stage(stage + 1)
            self.together.append(edit)
            if stage == Stage.ANSWERS and edit is not self.plant:
                self.tell(f"{edit.label}: no answer refuses it, so it is tried again with search")
        else:
            self.alone.append(edit.file)

    def try_alone(self, file: str) -> None:
        """Tries an edit alone: its functions, without the proofs of the others and with them, then the whole crate."""
        is_plant = self.plant is not None and file == self.plant.file
        near = self.near.get(file, [])
        others = self.others(near)
        if not is_plant and near and (self.is_refused_near(file, near, others)
                                      or others and self.is_refused_near(file, near, [])):
            return
        refused, said = self.kit.must_fail(self.crate, file)
        if is_plant:
            self.plant_found = not refused and ": NOT REFUSED" in said
            return
        self.results.append(Result(self.labels[file], refused, said.partition(": ")[2]))
        self.tell(f"alone: {said[:150]}")

    def is_refused_near(self, file: str, near: List[str], aside: List[str]) -> bool:
        """Counts an edit as refused where a check of some functions alone, with no other edit, proves not all of them.
        Where others are aside, a function has to say more than that it isn't proved: goals or answers of its own."""
        texts, _ = self.kit.read_edit(file, self.folder)
        if not texts:
            return False
        ran = self.checked(texts, near, aside)
        if not output.is_judged(ran.text, ran.status) or self.kit.is_unread(ran, texts):
            return False
        for name, it in output.read(ran.text).items():
            if output.OWN.fullmatch(it.line) and (not aside or it.goals or it.refused_answer):
                said = f"refused, as it must be: alone: {name}: {it.line}"
                self.results.append(Result(self.labels[file], True, said))
                self.tell(f"{self.labels[file]}: {said[:150]}")
                return True
        return False


def is_settled(said: Optional[output.Said]) -> bool:
    """Whether what is said of a function would be said in another round too: it isn't proved and calls nothing that
    isn't, but no goal of its own was refused, as where a lemma names what an edit took away."""
    return said is not None and said.line == "not proved" and not said.goals and not said.refused_answer


def try_crate(kit: Any, crate: str, good: Sequence[str], bad: Sequence[str], known: Sequence[str], is_planted: bool,
              tell: Callable[[str], None]) -> Tried:
    """Tries the edits of a crate, and where asked for, beside them one that changes nothing."""
    with tempfile.TemporaryDirectory(prefix="gate-") as room:
        trial = Trial(kit, crate, known or names_by_check(kit, crate), tell)
        trial.results = [Result(f"{crate}/{os.path.basename(it)}", False, "BAD EDIT: no plain file NAME.edit")
                         for it in bad]
        trial.sort_out(good)
        if is_planted:
            trial.put_plant(room)
        trial.run()
        plant = Plant(trial.plant.label, trial.was_beside, trial.plant_found) if trial.plant else None
        return Tried(trial.results, plant)


def has_place_for_plant(kit: Any, crate: str, good: Sequence[str], known: Sequence[str]) -> bool:
    """Whether a crate has a function that calls one that an edit changes."""
    with tempfile.TemporaryDirectory(prefix="gate-") as room:
        trial = Trial(kit, crate, known or names_by_check(kit, crate), print)
        trial.sort_out(good)
        return trial.put_plant(room)


def names_by_check(kit: Any, crate: str) -> List[str]:
    """The functions of a crate as a check of it prints them: those of a crate that `rt ci` took from an earlier run on
    the same machine, of which it says nothing more."""
    return output.names(kit.checked(crate, {}, [], []).text)
