#!/usr/bin/env python3
"""Tests of the gate's parts, on lines that the prover printed."""

import os
import shutil
import subprocess
import sys
import tempfile
import time
import types
import unittest
from typing import Dict, List, Optional, Sequence, Tuple

sys.dont_write_bytecode = True
sys.path.insert(0, os.path.dirname(os.path.abspath(__file__)))

from gate_lib import clock, edits, kit, output, rounds, source  # noqa: E402 (found by the line above)

# A ring: `cut_from` calls `count_below`.
RING = """\
//! A ring.

impl<E: Stamped, A: Allocator> Ring<E, A> {
    /// How many entries it holds.
    pub fn len(&self) -> usize
        ensures { result ≡ length self.now }
    {
        self.buffer.len()
    }

    /// How many entries are older.
    fn count_below(&self, stamp: u64) -> usize
        ensures below { IsTrue (all_below stamp
            (take result self.now)) }
    {
        if entry.stamp() < stamp {
            return count + 1;
        }
        count
    }

    /// Drops the entries from a stamp on.
    pub fn cut_from(&mut self, stamp: u64) -> usize {
        let keep = self.count_below(stamp);
        self.buffer.truncate_back(keep);
        keep
    }
}
"""
CONSTANTS = """\
pub const MOST: [usize; 2] = [
    256,
    3,
];

fn has_room(n: usize) -> bool {
    n <= MOST[0]
}

fn other() -> usize {
    64;
}
"""
LEN, BELOW, CUT = (f"reorder_buffer::ring::Ring::{it}" for it in ("len", "count_below", "cut_from"))
KNOWN = [LEN, BELOW, CUT]

# What the prover printed, long lines cut.
NOTE = "note: src/ring.rt:{}:5: it is not proved that what the function ensures holds when it returns (`returns`)\n"
BY_ITSELF = (
    "fn {0}: no proof: expected answers in ./proofs/ring/Ring/len/Answers.antt; `search` did not prove `returns`, "
    "`returns-clause-front`\n"
)
BY_ITSELF_TOO = (
    "fn {0}: no proof: expected answers in ./proofs/ring/Ring/len/Answers.antt; `search` did not prove `returns`; "
    f"it calls `{BELOW}`, which is not proved\n"
)
BY_A_CALL = f"fn {{0}}: no proof: it calls `{BELOW}`, which is not proved\n"
BY_A_BLOCK = (
    f"fn {{0}}: no proof: it calls `{BELOW}`, which is not proved; it passes the block `reorder_buffer::RingJoin`, "
    "which is not proved\n"
)
BARE_BUT_CALLS = BY_A_BLOCK.replace("no proof: ", "not proved; ")
REFUSED_ANSWER = (
    "./proofs/ring/Ring/count_below/Answers.antt:8:80: error: `returns-then-stamp-clause-below`: `omega`: the goal "
    "does not follow from what it read.\n"
)
ANSWER_NOT_TRIED = (
    "./proofs/ring/Ring/count_below/Answers.antt:9:5: error: 1 declaration that depends on `invariant_of-self`, which "
    "was rejected, was not checked: returns-clause-growing\n"
)
ANSWER_NAMES = (
    "./proofs/ring/Ring/count_below/Answers.antt:7:63: error: `invariant_of-self`: record `Lts.After-map_err` has no "
    "field `try_push_back` (nearest: .try_push_front)\n"
)
ANSWER_NAMES_OWN = (
    "./proofs/ring/Ring/count_below/Answers.antt:7:63: error: `invariant_of-self`: record "
    "`Rattle.reorder_buffer.proofs.ring.Ring.count_below.Lts.After-map_err` has no field `try_push_back`\n"
)
ANSWER_NAMES_OWN_GOAL = (
    "./proofs/ring/Ring/count_below/Answers.antt:4:5: error: `returns`: `goal.returns`: module "
    "`Rattle.reorder_buffer.proofs.ring.Ring.count_below.Goals` has no `returns` that can be named from here\n"
)
ANSWER_NAMES_OWN_BROKEN = (
    "./proofs/ring/Ring/count_below/Answers.antt:7:63: error: `invariant_of-self`: record "
    "`Rattle.reorder_buffer.proofs.ring.Ring.count_below.Lts.After-map_err` {A = g.row.A} (nearest: .try_push_front)\n"
    "  has no field `try_push_back`\n"
)
ANSWER_NAMES_OTHERS = (
    "./proofs/ring/Ring/count_below/Answers.antt:7:63: error: `invariant_of-self`: record "
    "`Rattle.reorder_buffer.proofs.ring.Ring.len.Lts.After-map_err` has no field `try_push_back`\n"
)
# What the prover says of the answer that each tried function has to a goal that there isn't.
TO_NO_GOAL = (
    "./proofs/ring/Ring/{0}/Answers.antt:14:28: error: `no-goal-of-this-name`: `no-goal-of-this-name-asked` is not in "
    "scope\n"
)
TO_NO_GOAL_OF_ITS_OWN = (
    "./proofs/ring/Ring/{0}/Answers.antt:14:28: error: `no-goal-of-this-name`: module "
    "`Rattle.reorder_buffer.proofs.ring.Ring.{0}.Goals` has no `no-goal-of-this-name` that can be named from here\n"
)
PROVED, BARE = "fn {0}: proved\n", "fn {0}: not proved\n"
NOT_PROVED = "logic=not-proved\n"
UNREADABLE = "src/ring.rt:17:9: error: `entri` is not in scope\n"


class OutputTest(unittest.TestCase):
    """What counts as a reason of the function's own."""

    def is_own(self, text: str, name: str, first: int = 1, last: int = 99) -> bool:
        return output.read(text)[name].is_own("src/ring.rt", first, last)

    def test_a_goal_of_its_own(self) -> None:
        self.assertTrue(self.is_own(NOTE.format(5) + BY_ITSELF.format(LEN), LEN))
        self.assertTrue(self.is_own(NOTE.format(5) + BY_ITSELF_TOO.format(LEN), LEN))

    def test_a_goal_that_stands_elsewhere(self) -> None:
        self.assertFalse(self.is_own(NOTE.format(5) + BY_ITSELF.format(LEN), LEN, 6, 9))
        self.assertFalse(self.is_own(NOTE.format(5) + PROVED.format(CUT) + BY_ITSELF.format(LEN), LEN))

    def test_a_place_out_of_bounds(self) -> None:
        note = (
            "note: src/ring.rt:5:9: index 1 is out of bounds of an array of 1 (`bounds-bytes-1`); the facts known there "
            "allow values at which this goal is false\n"
        )
        self.assertTrue(self.is_own(note + BY_ITSELF.format(LEN), LEN, 4, 7))
        self.assertFalse(self.is_own(note + BY_ITSELF.format(LEN), LEN, 6, 7))

    def test_a_call(self) -> None:
        said = output.read(BARE.format(BELOW) + BY_A_CALL.format(CUT))[CUT]
        self.assertFalse(said.is_own("src/ring.rt", 1, 99))
        self.assertTrue(said.is_called_only)

    def test_what_is_called(self) -> None:
        said = output.read(BY_A_CALL.format(CUT))[CUT]
        self.assertTrue(said.calls_one_of({LEN, BELOW}))
        self.assertFalse(said.calls_one_of({LEN, CUT}))
        said = output.read(NOTE.format(5) + BY_ITSELF_TOO.format(LEN))[LEN]
        self.assertFalse(said.calls_one_of({BELOW}))

    def test_a_block_that_is_passed(self) -> None:
        for line in (BY_A_BLOCK, BARE_BUT_CALLS):
            said = output.read(BARE.format(BELOW) + line.format(CUT))[CUT]
            self.assertFalse(said.is_own("src/ring.rt", 1, 99))
            self.assertTrue(said.is_called_only)
        refused = REFUSED_ANSWER.replace("count_below", "cut_from")
        self.assertTrue(self.is_own(refused + BARE_BUT_CALLS.format(CUT), CUT))

    def test_a_refused_answer(self) -> None:
        self.assertTrue(self.is_own(REFUSED_ANSWER + BARE.format(BELOW), BELOW))
        self.assertFalse(self.is_own(ANSWER_NOT_TRIED + BARE.format(BELOW), BELOW))
        self.assertFalse(self.is_own(ANSWER_NAMES + BARE.format(BELOW), BELOW))
        self.assertFalse(self.is_own(REFUSED_ANSWER + BARE.format(LEN), LEN))

    def test_an_answer_that_names_what_is_gone(self) -> None:
        self.assertTrue(self.is_own(ANSWER_NAMES_OWN + BARE.format(BELOW), BELOW))
        self.assertTrue(self.is_own(ANSWER_NAMES_OWN_GOAL + BARE.format(BELOW), BELOW))
        self.assertFalse(self.is_own(ANSWER_NAMES_OTHERS + BARE.format(BELOW), BELOW))
        self.assertFalse(self.is_own(ANSWER_NAMES_OWN + BARE.format(LEN), LEN))
        calls = f"fn {CUT}: not proved; it calls `{BELOW}`, which is not proved\n"
        named = ANSWER_NAMES_OWN.replace("count_below", "cut_from")
        # (what its body has is the same whatever becomes of what it calls)
        self.assertTrue(self.is_own(named + BARE.format(BELOW) + calls, CUT))
        self.assertFalse(self.is_own(ANSWER_NAMES_OWN + BARE.format(BELOW) + calls, CUT))

    def test_an_answer_that_names_what_is_gone_over_two_lines(self) -> None:
        said = output.read(ANSWER_NAMES_OWN_BROKEN + BARE.format(BELOW))[BELOW]
        self.assertEqual((said.refused_answer, said.names_gone, said.is_gone_only), (False, True, True))

    def test_what_stands_behind_a_message_is_of_it(self) -> None:
        said = output.read(REFUSED_ANSWER + "  of `List`\n" + ANSWER_NAMES_OWN + BARE.format(BELOW))[BELOW]
        self.assertEqual((said.refused_answer, said.names_gone), (True, True))

    def test_the_answer_to_no_goal(self) -> None:
        for answer in (TO_NO_GOAL.format("len"), TO_NO_GOAL_OF_ITS_OWN.format("len")):
            self.assertFalse(self.is_own(answer + BARE.format(LEN), LEN))
            self.assertTrue(self.is_own(answer + NOTE.format(5) + BARE.format(LEN), LEN))
        answer = TO_NO_GOAL.format("count_below")
        self.assertTrue(self.is_own(answer + REFUSED_ANSWER + BARE.format(BELOW), BELOW))
        self.assertTrue(self.is_own(ANSWER_NAMES_OWN + answer + BARE.format(BELOW), BELOW))

    def test_proved(self) -> None:
        self.assertTrue(output.read(PROVED.format(LEN))[LEN].is_proved)
        self.assertFalse(self.is_own(NOTE.format(5) + PROVED.format(LEN), LEN))

    def test_a_line_that_is_not_known(self) -> None:
        for line in ("fn {0}: could not tell\n", "fn {0}: not proved, for now\n", "fn {0}: no proof: it has a loop\n"):
            self.assertFalse(self.is_own(NOTE.format(5) + line.format(LEN), LEN))

    def test_an_end_that_is_not_known(self) -> None:
        self.assertTrue(output.is_judged(NOT_PROVED, 1))
        self.assertTrue(output.is_judged("only=3 proved=2\n", 1))
        self.assertFalse(output.is_judged(NOT_PROVED, 2))
        self.assertFalse(output.is_judged("rattle: no verdict\n", 1))
        self.assertFalse(output.is_judged(NOT_PROVED + UNREADABLE, 1))


class SourceTest(unittest.TestCase):
    """Where functions stand, and how the prover names them."""

    def test_functions(self) -> None:
        found = source.functions(RING)
        self.assertEqual([it.name for it in found], ["len", "count_below", "cut_from"])
        self.assertEqual([source.printed_name("reorder_buffer", "src/ring.rt", it) for it in found], KNOWN)
        self.assertTrue(RING[found[1].start:].startswith("    fn count_below"))
        self.assertTrue(RING[:found[1].end].endswith("count\n    }\n"))

    def test_a_head_of_several_lines(self) -> None:
        text = "impl<G: Guess, A: Allocator> Core<\n    G,\n    A,\n> {\n    fn cycles(&self) -> u64 {\n        1\n    }\n}"
        found = source.functions(text)
        self.assertEqual([source.printed_name("core_cycle", "src/cycle.rt", it) for it in found],
                         ["core_cycle::cycle::Core::cycles"])

    def test_parameters_in_several_lines(self) -> None:
        text = ("impl Ring {\n    fn take<\n        A: Order,\n    >(\n        &self,\n    ) -> u64\n        ensures { result ≡ 1 }\n"
                "    {\n        1\n    }\n}\n\nfn next() {\n    2;\n}\n")
        found = source.functions(text)
        self.assertEqual([it.name for it in found], ["take", "next"])
        self.assertEqual(text[found[0].body:found[0].end], "\n        1\n    }\n")

    def test_no_body(self) -> None:
        text = "trait Order {\n    fn key(&self) -> u64\n        ensures { result ≡ key_of self.now };\n}\n\nfn f() {}"
        self.assertEqual(source.functions(text), [])

    def test_owners(self) -> None:
        for head, name in (
                ("impl<A: Allocator> Guess for Tables<A>", "TablesGuess"),
                ("impl<T: Drop> From<AllocFailed<T>> for AsmFault", "AsmFaultFromAllocFailed"),
                ("impl From<&Profile> for Latencies", "LatenciesFromRefProfile"),
                ("impl Join for Option<u64>", "OptionU64Join"),
                ("impl<A: Join, B: Join> Join for (A, B)", "Tuple2Join"),
                ("impl fmt::Display for RingFault", "RingFaultDisplay"),
                ("impl<'a, R: Files> LazyFile<'a, R>", "LazyFile"),
                ("impl<G: Guess + Drop, A: Allocator> Core< G, A, >", "Core"),
                ("pub trait Pick", "Pick")):
            self.assertEqual(source.printed_owner(head), name)

    def test_unsearched(self) -> None:
        none = "    #[tactic(none)]"
        for above, found in (("", ""), ("    #[inline]\n", "    #[inline]\n"), ("    #[tactic(auto, using(a::b))]\n", f"{none}\n")):
            for head in ("pub(crate) fn cut(&self) {\n", "fn cut() {\n"):
                text = f"{above}    {head}        let x = 1; #[tactic(auto)]\n    }}\n"
                want = text.replace(above + "    ", found + ("    " if "tactic" in above else f"{none} "), 1)
                self.assertEqual(source.unsearched(text), want)

    def test_functions_that_call_themselves(self) -> None:
        with tempfile.TemporaryDirectory() as top:
            for folder in ("+count", "merges/+merge", "merges/join"):
                os.makedirs(f"{top}/proofs/{folder}")
            self.assertEqual(edits.in_cycles("law", top), {"law::count", "law::merges::merge"})

    def test_cycle(self) -> None:
        text = "#[cycle(parity)]\n/// Whether a number is even.\nfn even(n: u64) -> bool {\n    odd(n - 1)\n}\n"
        self.assertEqual([it.cycle for it in source.functions(text)], ["parity"])

    def test_attributes_belong_to_a_function(self) -> None:
        text = "/// Twice a number.\n#[inline(always)]\n#[tactic(auto)]\nfn twice(n: u64) -> u64 {\n    n * 2\n}\n"
        found = source.functions(text)
        self.assertTrue(text[found[0].start:].startswith("#[inline(always)]"))

    def test_calls(self) -> None:
        self.assertTrue(source.calls("self.count_below(stamp)", "count_below"))
        self.assertTrue(source.calls("(count_below(stamp))", "count_below"))
        self.assertFalse(source.calls("self.buffer.len()", "len"))
        self.assertFalse(source.calls("recount_below(stamp)", "count_below"))

    def test_calls_itself(self) -> None:
        for body, well in (("fall(n - 1)", True), ("ring.fall(n)", False), ("ring::fall(n)", False)):
            text = f"fn fall(n: usize) {{\n    {body}\n}}\n"
            self.assertEqual(source.calls_itself(text, source.functions(text)[0]), well)

    def test_constants(self) -> None:
        at = CONSTANTS.index("256")
        self.assertEqual(source.constant_at(CONSTANTS, at, at + 3), "MOST")
        at = CONSTANTS.index("64;")
        self.assertEqual(source.constant_at(CONSTANTS, at, at), "")

    def test_near_a_constant(self) -> None:
        with tempfile.TemporaryDirectory() as room:
            os.makedirs(f"{room}/src/low")
            for file, text in (("lib.rt", CONSTANTS), ("low/more.rt", "fn more() -> usize {\n    MOST + 1\n}\n")):
                with open(f"{room}/src/{file}", "w", encoding="utf-8") as it:
                    it.write(text)
            known = ["pages::other", "pages::has_room", "pages::low::more::more"]
            near = edits.functions_near("pages", room, {"src/lib.rt": CONSTANTS.replace("256", "255")}, known)
            self.assertEqual(near, ["pages::has_room", "pages::low::more::more"])
            # (where the name of one isn't certain, the file's functions are tried)
            near = edits.functions_near("pages", room, {"src/lib.rt": CONSTANTS.replace("256", "255")}, known[:2])
            self.assertEqual(near, ["pages::has_room", "pages::other"])

    def test_what_is_left_aside(self) -> None:
        text = (
            "fn cut() {\n    left();\n}\n\nfn left() {\n    1\n}\n\nfn walk() {\n    walk()\n}\n\n"
            "#[cycle(turns)]\nfn turn() {\n    2\n}\n\nfn told() {\n    3\n}\n"
        )
        proofs = {
            "Laws.antt": "use Rattle.pages.proofs.told.Goals as goal\n",
            "left/Answers.antt": "use Rattle.pages.proofs.left.Goals as goal\n",
        }
        known = [f"pages::{it}" for it in ("cut", "left", "walk", "turn", "told", "PageClone::clone")]
        more = ["pages::fn::cut::closure", "pages::pages++Page+Destruct::drop"]
        with tempfile.TemporaryDirectory() as room:
            for file, said in {"src/lib.rt": text, **{f"proofs/{it}": proofs[it] for it in proofs}}.items():
                os.makedirs(os.path.dirname(f"{room}/{file}"), exist_ok=True)
                with open(f"{room}/{file}", "w", encoding="utf-8") as it:
                    it.write(said)
            aside = edits.aside("pages", room, ["pages::cut"], known + more)
        self.assertEqual(aside, ["pages::left", "pages::PageClone::clone"])

    def test_bodies_left_out(self) -> None:
        with tempfile.TemporaryDirectory() as room:
            os.makedirs(f"{room}/src")
            with open(f"{room}/src/ring.rt", "w", encoding="utf-8") as it:
                it.write(RING)
            edited = RING.replace("truncate_back(keep)", "truncate_front(keep)")
            texts = edits.without_bodies("reorder_buffer", room, {"src/ring.rt": edited}, [LEN, BELOW], KNOWN)
            self.assertEqual(edits.without_bodies("reorder_buffer", room, {}, [], KNOWN), {})
        left = texts["src/ring.rt"]
        self.assertEqual((list(texts), left.count("unreachable!() }")), (["src/ring.rt"], 2))
        self.assertNotIn("buffer.len()", left)
        # (what stays stands where it stood)
        lines = [(at, it) for at, it in enumerate(edited.split("\n")) if "cut_from" in it or "keep" in it or "fn " in it]
        self.assertEqual([it for it in enumerate(left.split("\n")) if it in lines], lines)
        self.assertEqual(left.count("\n"), edited.count("\n"))


class FakeKit:
    """A toolchain whose checks answer as they are told to."""

    def __init__(self, top: str, answers: Sequence[str], alone: Dict[str, bool]) -> None:
        self.top, self.answers, self.refused_alone = top, list(answers), alone
        self.only: List[List[str]] = []
        self.aside: List[List[str]] = []
        self.texts: List[Dict[str, str]] = []
        self.tried: List[str] = []
        os.makedirs(f"{top}/src", exist_ok=True)
        with open(f"{top}/src/ring.rt", "w", encoding="utf-8") as it:
            it.write(RING)

    def folder(self, _crate: str) -> str:
        return self.top

    def edit(self, name: str, old: str, new: str) -> str:
        """Writes an edit."""
        file = f"{self.top}/{name}.edit"
        with open(file, "w", encoding="utf-8") as it:
            it.write(f"{old}\n{new}")
        return file

    def read_edit(self, file: str, folder: str) -> Tuple[Optional[Dict[str, str]], str]:
        if file.endswith("changes_nothing.edit"):
            raise AssertionError("the planted edit is not read")
        old, _, new = edits.read(file).partition("\n")
        text = edits.read(f"{folder}/src/ring.rt")
        if text.count(old) != 1:
            return None, "an 'old:' text is in src/ring.rt 0 times, and not once"
        return {"src/ring.rt": text.replace(old, new)}, ""

    def checked(self, _crate: str, texts: Dict[str, str], only: List[str], aside: List[str]) -> kit.Ran:
        self.only.append(only)
        self.aside.append(aside)
        self.texts.append(texts)
        text = self.answers.pop(0)
        return kit.Ran(0 if text == "logic=proved\n" else 1, text)

    def is_unread(self, ran: kit.Ran, _texts: Dict[str, str]) -> bool:
        return UNREADABLE in ran.text

    def must_fail(self, crate: str, edit: str) -> Tuple[bool, str]:
        name = os.path.basename(edit)
        self.tried.append(name)
        label = f"must-fail {crate}/{name}"
        if self.refused_alone.get(name[:-len(".edit")], False):
            return True, f"{label}: refused, as it must be"
        return False, f"{label}: NOT REFUSED: the crate is still proved with this edit"


class KitTest(unittest.TestCase):
    """What the toolchain's versions give of an edit."""

    def test_what_is_a_refusal(self) -> None:
        self.assertEqual([kit.is_refusal(it) for it in (True, "refused", "limit")], [True] * 3)
        self.assertEqual([kit.is_refusal(it) for it in (False, "missed", "bad", "unsure", None, 1.5)], [False] * 6)

    def test_lanes(self) -> None:
        self.assertIn(kit.lanes(), range(1, (os.cpu_count() or 1) + 1))

    def test_proofs_left_aside(self) -> None:
        files = ["src/lib.rt", "proofs/low/cut/Answers.antt", "proofs/low/cut/Facts.antt", "proofs/low/len/Answers.antt"]
        with tempfile.TemporaryDirectory() as top, tempfile.TemporaryDirectory() as room:
            for file in files:
                os.makedirs(os.path.dirname(f"{top}/{file}"), exist_ok=True)
                with open(f"{top}/{file}", "w", encoding="utf-8") as it:
                    it.write("told")
            made = types.SimpleNamespace(crates={"pages": types.SimpleNamespace(folder=top)},
                                         lib=types.SimpleNamespace(PARTS=("src", "specs", "proofs")))
            crate = kit.Kit.without_proofs(made, "pages", ["pages::low::cut", "pages::new"], room)  # type: ignore
            self.assertEqual((crate.folder, made.crates["pages"].folder), (room, top))
            left = {os.path.relpath(f"{at}/{it}", room): edits.read(f"{at}/{it}")
                    for at, _, names in os.walk(room) for it in names}
        told = dict.fromkeys([files[0], files[2], files[3]], "told")
        self.assertEqual(left, {**told, "proofs/low/cut/Proof.antt": "", "proofs/new/Proof.antt": ""})

    def test_no_answers_are_offered(self) -> None:
        with tempfile.TemporaryDirectory() as room:
            for file in ("cut/Answers.antt", "len/Proof.antt"):
                with open(f"{kit.folder_of_proof(f'pages::low::{file[:3]}', room)}/{file[4:]}", "w", encoding="utf-8") as it:
                    it.write("told")
            kit.without_offers(["pages::low::cut", "pages::low::len", "pages::new"], room)
            left = {os.path.relpath(f"{at}/{it}", f"{room}/proofs"): edits.read(f"{at}/{it}")
                    for at, _, names in os.walk(room) for it in names}
        added = f"\npub {output.NO_GOAL} : {output.NO_GOAL}-asked\n{output.NO_GOAL} = tt\n"
        self.assertEqual(left, {"low/cut/Answers.antt": f"told{added}", "low/len/Proof.antt": "told",
                                "new/Answers.antt": added})

    def test_answers_are_offered_where_none_is_aside(self) -> None:
        for aside in ([], ["pages::new"]):
            found: List[bool] = []
            made = types.SimpleNamespace(
                without_proofs=lambda _name, _aside, room: types.SimpleNamespace(folder=room),
                rt=types.SimpleNamespace(checked=lambda crate, _texts, flags, _kept: found.append(
                    os.path.exists(f"{crate.folder}/proofs/cut/Answers.antt")
                ) or types.SimpleNamespace(returncode=1, stdout=" ".join(flags))))
            ran = kit.Kit.checked(made, "pages", {}, ["pages::cut"], aside)  # type: ignore
            self.assertEqual((ran.text, found), ("--jobs 1 --only cut", [bool(aside)]))


class RoundsTest(unittest.TestCase):
    """How edits go through the rounds."""

    def setUp(self) -> None:
        room = tempfile.TemporaryDirectory()
        self.addCleanup(room.cleanup)
        self.top = room.name

    def trial(self, answers: Sequence[str], files: Dict[str, Tuple[str, str]], is_planted: bool = False,
              **alone: bool) -> Tuple[FakeKit, rounds.Tried]:
        made = FakeKit(self.top, answers, alone)
        good = [made.edit(name, *text) for name, text in files.items()]
        return made, rounds.try_crate(made, "reorder_buffer", good, [], KNOWN, is_planted, lambda _text: None)

    def refused(self, tried: rounds.Tried) -> Dict[str, bool]:
        return {it.label: it.refused for it in tried.results}

    LEN_EDIT = ("self.buffer.len()", "self.buffer.capacity()")
    LEN_EDIT_2 = ("        self.buffer.len()", "        self.buffer.len() / 2")
    BELOW_EDIT = ("entry.stamp() < stamp", "entry.stamp() <= stamp")
    CUT_EDIT = ("truncate_back(keep)", "truncate_front(keep)")

    def test_all_refused_in_one_round(self) -> None:
        said = NOTE.format(5) + BY_ITSELF.format(LEN) + REFUSED_ANSWER + BARE.format(BELOW) + NOT_PROVED
        made, tried = self.trial([said], {"len": self.LEN_EDIT, "below": self.BELOW_EDIT})
        self.assertEqual(self.refused(tried), {"reorder_buffer/len.edit": True, "reorder_buffer/below.edit": True})
        self.assertEqual(made.tried, [])
        self.assertIn("capacity", made.texts[0]["src/ring.rt"])
        self.assertIn("<= stamp", made.texts[0]["src/ring.rt"])

    def test_functions_that_nothing_named_are_told_by_a_check(self) -> None:
        named = "".join(f"fn {it}: proved\n" for it in KNOWN) + "logic=proved\n"
        said = NOTE.format(5) + BY_ITSELF.format(LEN) + NOT_PROVED
        made = FakeKit(self.top, [named, said], {})
        good = [made.edit("len", *self.LEN_EDIT)]
        tried = rounds.try_crate(made, "reorder_buffer", good, [], [], False, lambda _text: None)
        self.assertEqual([it.refused for it in tried.results], [True])
        self.assertEqual((made.only, made.texts[0]), ([[], [LEN]], {}))

    def test_edits_of_one_function_go_to_two_rounds(self) -> None:
        said = NOTE.format(5) + BY_ITSELF.format(LEN) + NOT_PROVED
        made, tried = self.trial([said, said], {"one": self.LEN_EDIT, "two": self.LEN_EDIT_2})
        self.assertEqual([it.refused for it in tried.results], [True, True])
        # (both leave the proofs of the others aside)
        self.assertEqual(made.aside, [[BELOW, CUT]] * 2)

    def test_refused_only_through_a_call(self) -> None:
        said = REFUSED_ANSWER + BARE.format(BELOW) + BY_A_CALL.format(CUT) + NOT_PROVED
        proved = PROVED.format(BELOW) + PROVED.format(CUT) + NOT_PROVED
        answers = [said, proved, "logic=proved\n", "logic=proved\n"]
        made, tried = self.trial(answers, {"below": self.BELOW_EDIT, "cut": self.CUT_EDIT})
        self.assertEqual(self.refused(tried), {"reorder_buffer/below.edit": True, "reorder_buffer/cut.edit": False})
        self.assertEqual(made.tried, ["cut.edit"])
        # (again with the proofs of the others, and alone in both ways)
        self.assertEqual((made.only[1:], made.aside), ([[CUT]] * 3, [[LEN], [], [LEN, BELOW], []]))

    def test_proved(self) -> None:
        said = PROVED.format(LEN) + NOT_PROVED
        made, tried = self.trial([said, said, "logic=proved\n", "logic=proved\n"], {"len": self.LEN_EDIT})
        self.assertEqual([it.refused for it in tried.results], [False])
        self.assertIn("NOT REFUSED", tried.results[0].said)
        self.assertEqual(made.tried, ["len.edit"])

    def put_answers(self) -> None:
        """Gives `count_below` a file of answers."""
        os.makedirs(f"{self.top}/proofs/ring/Ring/count_below")
        with open(f"{self.top}/proofs/ring/Ring/count_below/Answers.antt", "w", encoding="utf-8") as it:
            it.write("told")

    def test_answers_are_tried_without_search(self) -> None:
        self.put_answers()
        said = NOTE.format(5) + BY_ITSELF.format(LEN) + NOTE.format(13) + REFUSED_ANSWER + BARE.format(BELOW) + NOT_PROVED
        made, tried = self.trial([said], {"len": self.LEN_EDIT, "below": self.BELOW_EDIT})
        self.assertEqual([it.refused for it in tried.results], [True, True])
        text = made.texts[0]["src/ring.rt"]
        self.assertIn("    #[tactic(none)] fn count_below(", text)
        self.assertEqual((text.count("tactic"), text.count("\n")), (1, RING.count("\n")))

    def test_a_goal_that_was_not_searched_says_nothing(self) -> None:
        self.put_answers()
        unsearched = NOTE.format(13) + BARE.format(BELOW) + NOT_PROVED
        made, tried = self.trial([unsearched, NOTE.format(13) + BARE.format(BELOW) + NOT_PROVED], {"below": self.BELOW_EDIT})
        self.assertEqual([it.refused for it in tried.results], [True])
        self.assertEqual([it["src/ring.rt"].count("tactic") for it in made.texts], [1, 0])
        self.assertEqual(made.aside, [[LEN, CUT]] * 2)

    def test_an_edit_that_wants_search(self) -> None:
        self.put_answers()
        said = NOTE.format(13) + BARE.format(BELOW) + NOT_PROVED
        made = FakeKit(self.top, [said], {})
        good = [made.edit("below", *self.BELOW_EDIT)]
        with open(f"{os.path.dirname(good[0])}/with_search.md", "w", encoding="utf-8") as it:
            it.write("Told.\n\n- `above.edit`\n- `below.edit`\n")
        tried = rounds.try_crate(made, "reorder_buffer", good, [], KNOWN, False, lambda _text: None)
        self.assertEqual(([it.refused for it in tried.results], made.texts[0]["src/ring.rt"].count("tactic")), ([True], 0))

    def test_nor_does_an_answer_that_names_what_is_gone(self) -> None:
        self.put_answers()
        gone = NOTE.format(13) + ANSWER_NAMES_OWN + BARE.format(BELOW) + NOT_PROVED
        made, tried = self.trial([gone, PROVED.format(BELOW) + NOT_PROVED, *["logic=proved\n"] * 3], {"below": self.BELOW_EDIT})
        self.assertEqual([it.refused for it in tried.results], [False])
        self.assertEqual(made.aside, [[LEN, CUT], [LEN, CUT], [], [LEN, CUT], []])

    def test_an_unreadable_one_sends_all_to_be_tried_alone(self) -> None:
        said = UNREADABLE + NOTE.format(5) + BY_ITSELF.format(LEN) + REFUSED_ANSWER + BARE.format(BELOW) + NOT_PROVED
        alone = NOTE.format(5) + BY_ITSELF.format(LEN) + "only=1 proved=0\n"
        made, tried = self.trial([said, alone, UNREADABLE + NOT_PROVED, UNREADABLE + NOT_PROVED],
                                 {"len": self.LEN_EDIT, "below": self.BELOW_EDIT})
        self.assertEqual(self.refused(tried), {"reorder_buffer/len.edit": True, "reorder_buffer/below.edit": False})
        self.assertEqual(made.only[1:], [[LEN], [BELOW], [BELOW]])
        self.assertEqual(made.tried, ["below.edit"])

    def test_alone_any_function_counts(self) -> None:
        other = BARE.format(BELOW) + BY_A_CALL.format(CUT) + "only=1 proved=0\n"
        said = REFUSED_ANSWER + BARE.format(BELOW) + BY_A_CALL.format(CUT) + NOT_PROVED
        made, tried = self.trial([said, PROVED.format(CUT) + NOT_PROVED, other, other],
                                 {"below": self.BELOW_EDIT, "cut": self.CUT_EDIT})
        self.assertEqual([it.refused for it in tried.results], [True, True])
        # (that a function isn't proved says nothing where the proofs of others are left aside)
        self.assertEqual((made.only[2:], made.aside[2:], made.tried), ([[CUT]] * 2, [[LEN, BELOW], []], []))

    def test_alone_a_line_that_is_not_known(self) -> None:
        said = PROVED.format(LEN) + NOT_PROVED
        alone = "fn {0}: could not tell\n".format(LEN) + "only=1 proved=0\n"
        made, tried = self.trial([said, said, alone, alone], {"len": self.LEN_EDIT})
        self.assertEqual([it.refused for it in tried.results], [False])
        self.assertEqual(made.tried, ["len.edit"])

    def test_an_edit_that_does_not_apply(self) -> None:
        _, tried = self.trial([], {"gone": ("self.buffer.gone()", "1")})
        self.assertEqual([it.refused for it in tried.results], [False])
        self.assertIn("BAD EDIT", tried.results[0].said)

    def test_outside_a_body_goes_alone(self) -> None:
        said = NOTE.format(5) + BY_ITSELF.format(LEN) + "only=1 proved=0\n"
        made, tried = self.trial([said], {"clause": ("length self.now", "0")})
        self.assertEqual([it.refused for it in tried.results], [True])
        self.assertEqual((made.only, made.aside), ([[LEN]], [[BELOW, CUT]]))
        self.assertEqual(made.tried, [])

    def test_outside_all_functions_goes_alone_over_the_file(self) -> None:
        said = NOTE.format(5) + BY_ITSELF.format(LEN) + "only=3 proved=2\n"
        made, tried = self.trial([said], {"head": ("//! A ring.", "//! Another.")})
        self.assertEqual([it.refused for it in tried.results], [True])
        self.assertEqual((made.only, made.aside), ([sorted(KNOWN)], [[]]))

    def test_answers_that_name_what_is_gone(self) -> None:
        made, tried = self.trial([ANSWER_NAMES_OWN + BARE.format(BELOW) + NOT_PROVED], {"below": self.BELOW_EDIT})
        self.assertEqual([it.refused for it in tried.results], [True])
        self.assertIn("names what the edit took away", tried.results[0].said)
        self.assertEqual((made.only, made.tried), ([[BELOW]], []))

    def test_answers_that_name_what_is_gone_beside_calls(self) -> None:
        calls = BARE.format(BELOW).rstrip() + f"; it calls `{LEN}`, which is not proved\n"
        made, tried = self.trial([ANSWER_NAMES_OWN + calls + NOT_PROVED], {"below": self.BELOW_EDIT})
        self.assertEqual(([it.refused for it in tried.results], made.only), ([True], [[BELOW]]))
        # (and where what is called has an edit too)
        said = NOTE.format(5) + BY_ITSELF.format(LEN) + ANSWER_NAMES_OWN + calls + NOT_PROVED
        made, tried = self.trial([said], {"len": self.LEN_EDIT, "below": self.BELOW_EDIT})
        self.assertEqual([it.refused for it in tried.results], [True, True])

    def test_answers_that_name_what_others_lack_go_alone(self) -> None:
        said = ANSWER_NAMES + BARE.format(BELOW) + NOT_PROVED
        bare = BARE.format(BELOW) + "only=1 proved=0\n"
        made, tried = self.trial([said, bare, bare], {"below": self.BELOW_EDIT})
        self.assertEqual([it.refused for it in tried.results], [True])
        self.assertEqual((made.only, made.tried), ([[BELOW]] * 3, []))

    def test_outside_a_body_and_its_file(self) -> None:
        made, tried = self.trial(["logic=proved\n", "logic=proved\n"], {"clause": ("length self.now", "0")}, clause=True)
        self.assertEqual([it.refused for it in tried.results], [True])
        self.assertEqual((made.only, made.tried), ([[LEN]] * 2, ["clause.edit"]))

    def test_a_cycle_goes_alone(self) -> None:
        made = FakeKit(self.top, [PROVED.format(BELOW) + "only=1 proved=1\n"] * 2, {"below": True})
        os.makedirs(f"{self.top}/proofs/ring/Ring/+count_below")
        good = [made.edit("below", *self.BELOW_EDIT)]
        tried = rounds.try_crate(made, "reorder_buffer", good, [], KNOWN, False, lambda _text: None)
        self.assertEqual([it.refused for it in tried.results], [True])
        self.assertEqual(made.tried, ["below.edit"])

    def test_the_planted_edit(self) -> None:
        said = REFUSED_ANSWER + BARE.format(BELOW) + BY_A_CALL.format(CUT) + NOT_PROVED
        made, tried = self.trial([said], {"below": self.BELOW_EDIT}, is_planted=True)
        self.assertEqual(tried.plant, rounds.Plant("reorder_buffer/changes_nothing.edit", True, True))
        self.assertEqual(self.refused(tried), {"reorder_buffer/below.edit": True})
        self.assertEqual(made.only[0], [BELOW, CUT])

    def test_the_planted_edit_in_a_function_with_answers(self) -> None:
        os.makedirs(f"{self.top}/proofs/ring/Ring/cut_from")
        with open(f"{self.top}/proofs/ring/Ring/cut_from/Answers.antt", "w", encoding="utf-8") as it:
            it.write("told")
        below = NOTE.format(13) + BY_ITSELF.format(BELOW)
        calls = NOTE.format(25) + BARE.format(CUT).rstrip() + f"; it calls `{BELOW}`, which is not proved\n"
        made, tried = self.trial([below + calls + NOT_PROVED, PROVED.format(CUT) + NOT_PROVED], {"below": self.BELOW_EDIT},
                                 is_planted=True)
        self.assertEqual(tried.plant, rounds.Plant("reorder_buffer/changes_nothing.edit", True, True))
        self.assertEqual((made.only, made.tried), ([[BELOW, CUT], [CUT]], ["changes_nothing.edit"]))
        # (where an answer of its own is refused, it is certified, and so the gate fails)
        answer = REFUSED_ANSWER.replace("count_below", "cut_from")
        _, tried = self.trial([below + answer + calls + NOT_PROVED], {"below": self.BELOW_EDIT}, is_planted=True)
        self.assertEqual(tried.plant, rounds.Plant("reorder_buffer/changes_nothing.edit", False, False))

    def test_the_planted_edit_is_certified(self) -> None:
        said = REFUSED_ANSWER + BARE.format(BELOW) + NOTE.format(25) + BY_ITSELF.format(CUT) + NOT_PROVED
        _, tried = self.trial([said], {"below": self.BELOW_EDIT}, is_planted=True)
        self.assertEqual(tried.plant, rounds.Plant("reorder_buffer/changes_nothing.edit", False, False))

    def test_the_planted_edit_is_refused_alone(self) -> None:
        said = REFUSED_ANSWER + BARE.format(BELOW) + BY_A_CALL.format(CUT) + NOT_PROVED
        _, tried = self.trial([said], {"below": self.BELOW_EDIT}, is_planted=True, changes_nothing=True)
        self.assertEqual(tried.plant, rounds.Plant("reorder_buffer/changes_nothing.edit", True, False))


FAKE_RT = """\
#!/bin/sh
case "$1" in
    version) echo "another kit" ;;
    ci) ls crates/low; cat crates/low/says; exit "$(cat crates/low/status)" ;;
esac
"""


class WholeTest(unittest.TestCase):
    """The gate under a toolchain that isn't the one named: plain `rt ci`, on a copy that has the edits."""

    def run_gate(self, says: str, status: int, program: int = 0, docs: int = 0,
                 draft: str = "") -> "subprocess.CompletedProcess[str]":
        here = os.path.dirname(os.path.abspath(__file__))
        with tempfile.TemporaryDirectory() as room:
            os.makedirs(f"{room}/bin")
            os.makedirs(f"{room}/top/tools")
            for folder in ("must-fail", "out"):
                os.makedirs(f"{room}/top/crates/low/{folder}")
            shutil.copy(f"{here}/gate", f"{room}/top/tools/gate")
            shutil.copytree(f"{here}/gate_lib", f"{room}/top/tools/gate_lib")
            for file, text in (("bin/rt", FAKE_RT), ("top/crates/low/says", says),
                               ("top/crates/low/status", str(status)),
                               ("top/tools/try_program.py", f"raise SystemExit({program})\n"),
                               ("top/tools/try_docs.py", f"raise SystemExit({docs})\n"),
                               ("top/tools/try_draft.py", draft)):
                with open(f"{room}/{file}", "w", encoding="utf-8") as it:
                    it.write(text)
            os.chmod(f"{room}/bin/rt", 0o755)
            environment = {**os.environ, "PATH": f"{room}/bin:{os.environ['PATH']}"}
            return subprocess.run([sys.executable, f"{room}/top/tools/gate"], env=environment, capture_output=True,
                                  text=True, check=False)

    def test_passed(self) -> None:
        ran = self.run_gate("3 passed, 0 failed\n", 0)
        self.assertEqual((ran.returncode, ran.stdout.splitlines()[-1]), (0, "6 passed, 0 failed"))
        self.assertIn("must-fail\n", ran.stdout)
        self.assertNotIn("out\n", ran.stdout)
        self.assertIn("another kit", ran.stderr)

    def test_failed(self) -> None:
        ran = self.run_gate("rt: FAILED: low/edit\n3 passed, 1 failed\n", 1)
        self.assertEqual((ran.returncode, ran.stdout.splitlines()[-2:]),
                         (1, ["FAILED: low/edit", "3 passed, 1 failed"]))

    def test_several_fail(self) -> None:
        ran = self.run_gate("rt: FAILED: low tests (tests) lab (run)\n9 passed, 3 failed\n", 1)
        self.assertEqual((ran.returncode, ran.stdout.splitlines()[-2:]),
                         (1, ["FAILED: low, tests (tests), lab (run)", "9 passed, 3 failed"]))

    def test_the_program_fails(self) -> None:
        ran = self.run_gate("3 passed, 0 failed\n", 0, program=1)
        self.assertEqual((ran.returncode, ran.stdout.splitlines()[-2:]),
                         (1, ["FAILED: tools/try_program.py", "5 passed, 1 failed"]))

    def test_the_documents_fail(self) -> None:
        ran = self.run_gate("3 passed, 0 failed\n", 0, docs=1)
        self.assertEqual((ran.returncode, ran.stdout.splitlines()[-2:]),
                         (1, ["FAILED: tools/try_docs.py", "5 passed, 1 failed"]))

    def test_the_draft_differs(self) -> None:
        ran = self.run_gate("3 passed, 0 failed\n", 0, draft="raise SystemExit(1)\n")
        self.assertEqual((ran.returncode, ran.stdout.splitlines()[-2:]),
                         (1, ["FAILED: tools/try_draft.py", "5 passed, 1 failed"]))

    def test_a_kit_without_a_draft(self) -> None:
        ran = self.run_gate("3 passed, 0 failed\n", 0, draft="print('no draft: another kit')\n")
        self.assertEqual((ran.returncode, ran.stdout.splitlines()[-1]), (0, "6 passed, 0 failed"))
        self.assertIn("try_draft.py: no draft: another kit", ran.stderr)

    def test_failed_without_a_name(self) -> None:
        for says, status, last in (("3 passed, 0 failed\n", 1, "3 passed, 1 failed"),
                                   ("3 passed, 2 failed\n", 0, "3 passed, 1 failed"),
                                   ("killed\n", 0, "0 passed, 1 failed")):
            ran = self.run_gate(says, status)
            self.assertEqual((ran.returncode, ran.stdout.splitlines()[-1]), (1, last))


class ClockTest(unittest.TestCase):
    """The table of processor time."""

    def test_table(self) -> None:
        lines = clock.table({("join_law", "proof"): 1.25, ("join_law", "edits"): 3.0, ("base_tests", "tests"): 2.0})
        self.assertEqual([it.split() for it in lines], [
            ["crate", "proof", "tests", "edits", "processor", "minutes"],
            ["base_tests", "0.0", "2.0", "0.0"],
            ["join_law", "1.2", "0.0", "3.0"],
            ["sum", "1.2", "2.0", "3.0"],
        ])

    def test_look(self) -> None:
        made = clock.Clock()
        with tempfile.TemporaryDirectory() as room:
            shutil.copy(os.path.realpath("/bin/sh"), f"{room}/rattle")
            busy = "while :; do :; done"
            with subprocess.Popen([f"{room}/rattle", "-c", busy, "--crate-name", "low", "--test"]) as started:
                for _turn in range(100):
                    made.look()
                    if made.minutes().get(("low", "tests"), 0.0) > 0:
                        break
                    time.sleep(0.05)
                started.kill()
        self.assertEqual(list(made.minutes()), [("low", "tests")])
        self.assertTrue(0 < made.minutes()["low", "tests"] < 1)

    def test_columns(self) -> None:
        made = clock.Clock()
        words = ["rattle", "check", "--crate-name", "join_law", "src/lib.rt"]
        self.assertEqual(made.column_of(words), ("join_law", "proof"))
        self.assertEqual(made.column_of([*words, "--test"]), ("join_law", "tests"))
        made.is_in_edits = True
        self.assertEqual(made.column_of(words), ("join_law", "edits"))
        self.assertIsNone(made.column_of(["rattle", "--version"]))


if __name__ == "__main__":
    unittest.main()
