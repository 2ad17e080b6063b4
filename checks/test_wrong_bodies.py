#!/usr/bin/env python3
"""Looks at checks/wrong_bodies: what is no wrong body is told and fails, in a small repository that is made for it.

    checks/test_wrong_bodies.py [CASE..]

The cases of `Tried` prove two functions of `fractions` some times, and ask for the kit: without it they are skipped.
"""
import os
import shutil
import subprocess
import sys
import tempfile
import unittest
from typing import Dict, List, Tuple

sys.dont_write_bytecode = True
ROOT = os.path.dirname(os.path.dirname(os.path.realpath(__file__)))
sys.path[:0] = [os.path.join(ROOT, "checks"), os.path.join(ROOT, "house")]
from bodies_laid import NO_GOAL, leave_out, offer_nothing  # noqa: E402
from bodies_read import Bad, Body, Change, Function, body_of, functions  # noqa: E402
from bodies_table import differs, write  # noqa: E402
from bodies_tried import Outcome, Refusal, Try, judge, tries  # noqa: E402

SOURCE = """\
//! Two functions and a type.

pub struct Two {
    one: u8,
}

impl Two {
    /// The first.
    #[inline(always)]
    pub fn first(&self) -> u8
        ensures { result ≡ self.now.one }
    {
        self.one
    }
}

impl From<u8> for Two {
    fn from(one: u8) -> Two {
        Two { one }
    }
}

/// Twice the first.
pub fn twice(two: &Two) -> u8
    ensures { result ≡ 2 * two.now.one }
{
    two.first() + two.first()
}
"""


def body(name: str, *refused: str) -> Body:
    return Body("low", name, (Change("low", "src/lib.rt", "self.one", "1"),), refused, "", False)


class Reading(unittest.TestCase):
    """What a file of a wrong body says."""

    def read(self, text: str) -> Body:
        with tempfile.TemporaryDirectory() as room:
            file = os.path.join(room, "a_body.edit")
            with open(file, "w", encoding="utf-8") as it:
                it.write(text)
            return body_of("low", file, False)

    def test_a_body_has_its_changes_and_who_refuses_it(self) -> None:
        found = self.read("file: src/lib.rt\nold:  a\nnew:  b\ncrate: deep\nfile: specs/D.antt\nold: c\nnew: d\nrefused: first, twice\n")
        self.assertEqual(found.changes, (Change("low", "src/lib.rt", " a", " b"), Change("deep", "specs/D.antt", "c", "d")))
        self.assertEqual((found.name, found.refused), ("a_body", ("first", "twice")))

    def test_what_says_too_little_is_bad(self) -> None:
        for text in ("file: src/lib.rt\nold: a\nnew: b\n", "file: src/lib.rt\nold: a\nnew: a\nrefused: f\n", "file: proofs/A.antt\nold: a\nnew: b\nrefused: f\n",
                     "refused: f\n", "file: src/../src/lib.rt\nold: a\nnew: b\nrefused: f\n", "whatever\nfile: src/lib.rt\nold: a\nnew: b\nrefused: f\n"):
            self.assertRaises(Bad, self.read, text)

    def test_functions_have_the_prover_s_paths_and_all_their_lines(self) -> None:
        found = functions("src/two.rt", SOURCE)
        self.assertEqual([it.of_trait for it in found], [False, True, False])
        self.assertEqual([(it.path, it.first, it.last) for it in found], [("two::Two::first", 1, 14), ("two::TwoFrom::from", 15, 20), ("two::twice", 21, 28)])


class Judging(unittest.TestCase):
    """What the prover's lines come to."""

    def judge(self, said: str, *refused: str) -> Outcome:
        return judge(Try("low", (body("a_body", *refused),)), functions("src/lib.rt", SOURCE), said, 1)[0]

    def test_a_goal_of_the_function_that_is_false_refuses(self) -> None:
        said = ("note: src/lib.rt:10:1: it is not proved that what the function ensures holds when it returns (`returns`); the facts known there allow values at which this goal is false\n"
                "fn low::Two::first: not proved\nonly=1 proved=0\n")
        self.assertEqual(self.judge(said, "Two::first").refusals[0][:3], ("Two::first", "returns", "values"))

    def test_a_search_that_ends_refuses_and_is_said_to(self) -> None:
        said = ("note: src/lib.rt:10:1: it is not proved that what the function ensures holds when it returns (`returns`); `search` gave up at one of its limits\n"
                "fn low::Two::first: no proof: expected answers in ./proofs/Two/first/Answers.antt; `search` did not prove `returns`\nonly=1 proved=0\n")
        self.assertEqual(self.judge(said, "Two::first").refusals[0].way, "search")

    def test_a_call_of_what_is_not_proved_is_no_refusal(self) -> None:
        said = "fn low::Two::first: proved\nfn low::twice: not proved: it calls `low::Two::first`, which is not proved\nonly=2 proved=1\n"
        self.assertIn("no goal of its own", self.judge(said, "twice").fault)

    def test_a_name_that_a_proof_file_misses_is_no_refusal(self) -> None:
        said = "./proofs/Two/first/Answers.antt:3:9: error: `returns`: `c.one` is not in scope\nfn low::Two::first: not proved\nonly=1 proved=0\n"
        self.assertIn("only because a proof file names", self.judge(said, "Two::first").fault)

    def test_what_is_said_of_an_import_is_no_refusal(self) -> None:
        said = "./proofs/Two/first/Answers.antt:5:58: error: module `Rattle.low.proofs.Two.first.Goals` is already brought in as `goal`: one name per module in a file\nfn low::Two::first: not proved\nonly=1 proved=0\n"
        self.assertIn("only because a proof file", self.judge(said, "Two::first").fault)
        self.assertEqual(self.judge(said, "Two::first").refusals, ())

    def test_a_goal_of_a_ring_is_that_of_the_function_it_begins_with(self) -> None:
        said = ("./proofs/+both/Answers.antt:9:7: error: `twice-returns-in-Some`: as printed, the two types differ only where one has `c.one`\n"
                "fn low::Two::first: not proved\nfn low::twice: not proved\nonly=2 proved=0\n")
        self.assertEqual(self.judge(said, "twice").refusals[0][:3], ("twice", "twice-returns-in-Some", "types"))
        self.assertIn("no goal of its own", self.judge(said, "Two::first").fault)

    def test_a_goal_that_there_is_not_is_nothing_that_is_said(self) -> None:
        said = (f"./proofs/twice/Answers.antt:3:9: error: `{NO_GOAL}`: module `Rattle.low.proofs.twice.Goals` has no `{NO_GOAL}` that can be named from here\n"
                "fn low::twice: not proved%s\nonly=1 proved=0\n")
        self.assertIn("twice is still proved", self.judge(said % "", "twice").fault)
        self.assertIn("no goal of its own", self.judge(said % "; it calls `low::Two::first`, which is not proved", "twice").fault)
        note = "note: src/lib.rt:26:1: it is not proved that what the function ensures holds when it returns (`returns`); `search` gave up at one of its limits\n"
        self.assertEqual(self.judge(note + said % "", "twice").refusals[0][:3], ("twice", "returns", "search"))

    def test_another_function_that_breaks_is_told(self) -> None:
        said = ("note: src/lib.rt:10:1: it is not proved that what the function ensures holds when it returns (`returns`); `search` gave up at one of its limits\n"
                "fn low::Two::first: not proved\nfn low::twice: proved\nonly=2 proved=1\n")
        self.assertIn("it breaks Two::first", self.judge(said, "twice").fault)

    def test_what_does_not_compile_is_told(self) -> None:
        self.assertIn("does not compile", self.judge("error[E0609]: no field `two`\nrattle: stopped\n", "twice").fault)


class Grouping(unittest.TestCase):
    """Which bodies are tried together."""

    def grouped(self, source: str, *bodies: Tuple[str, str, str]) -> List[List[str]]:
        with tempfile.TemporaryDirectory() as room:
            os.makedirs(os.path.join(room, "crates", "low", "src"))
            with open(os.path.join(room, "crates", "low", "src", "lib.rt"), "w", encoding="utf-8") as it:
                it.write(source)
            every = [Body("low", name, (Change("low", "src/lib.rt", old, "1"),), (who,), "", False) for name, old, who in bodies]
            return [[it.name for it in group.bodies] for group in tries(room, every)]

    def test_bodies_of_one_function_are_tried_apart(self) -> None:
        found = self.grouped(SOURCE, ("one", "self.one", "Two::first"), ("two", "two.first() +", "twice"), ("three", "Two { one }", "TwoFrom::from"), ("four", "+ two.first()", "twice"))
        self.assertEqual(found, [["one", "two", "three"], ["four"]])

    def test_bodies_of_a_ring_are_tried_apart(self) -> None:
        source = SOURCE.replace("    #[inline(always)]\n", "    #[cycle(both)]\n").replace("/// Twice", "#[cycle(both)]\n/// Twice")
        self.assertEqual(self.grouped(source, ("one", "self.one", "Two::first"), ("two", "two.first() +", "twice"), ("three", "Two { one }", "TwoFrom::from")), [["one", "three"], ["two"]])

    def test_a_body_that_changes_more_than_code_is_tried_alone(self) -> None:
        for old in ("self.now.one", "one: u8,"):
            self.assertEqual(self.grouped(SOURCE, ("one", old, "Two::first"), ("two", "two.first() +", "twice")), [["one"], ["two"]])


class Laid(unittest.TestCase):
    """The copy in which bodies are tried."""
    code = ""

    def files(self, place: str) -> Dict[str, str]:
        found: Dict[str, str] = {}
        for folder, _, names in os.walk(place):
            for name in names:
                with open(os.path.join(folder, name), encoding="utf-8") as it:
                    found[os.path.relpath(os.path.join(folder, name), place)] = it.read()
        return found

    def laid(self, source: str, kept: List[str], files: Dict[str, str]) -> Dict[str, str]:
        with tempfile.TemporaryDirectory() as room:
            for name, text in files.items():
                os.makedirs(os.path.dirname(os.path.join(room, "proofs", name)), exist_ok=True)
                with open(os.path.join(room, "proofs", name), "w", encoding="utf-8") as it:
                    it.write(text)
            os.makedirs(os.path.join(room, "src"))
            with open(os.path.join(room, "src", "two.rt"), "w", encoding="utf-8") as it:
                it.write(source)
            every = functions("src/two.rt", source)
            leave_out(room, every, set(kept))
            offer_nothing(room, "low", [it for it in every if it.path in kept])
            self.code = self.files(os.path.join(room, "src"))["two.rt"]
            return self.files(os.path.join(room, "proofs"))

    def test_the_code_of_what_is_looked_at_is_all_there_and_no_other(self) -> None:
        source = SOURCE + "\nconst fn fixed() -> u8 {\n    4\n}\n\nfn over() -> impl Iterator<Item = u8> {\n    make()\n}\n\npub trait Three {\n    fn third(&self) -> u8\n        ensures { result ≡ 3 };\n}\n"
        self.laid(source, ["two::twice"], {})
        self.assertEqual(self.code, source.replace("        self.one\n", "loop {}\n"))
        self.laid(SOURCE.replace("        self.one\n", "        let one = self.one;\n\n        one\n"), ["two::twice"], {})
        self.assertIn("{\nloop {}\n\n\n    }\n", self.code)

    def test_the_proofs_of_what_is_looked_at_are_all_there_and_no_other(self) -> None:
        found = self.laid(SOURCE, ["two::twice"], {"two/twice/Answers.antt": "returns c = c\n", "two/Two/first/Answers.antt": "", "two/Two/first/Invariants.antt": "", "Low.antt": "law"})
        self.assertEqual(sorted(found), ["Low.antt", "two/Two/first/Proof.antt", "two/twice/Answers.antt"])
        self.assertNotIn("_spec", found["two/Two/first/Proof.antt"])
        self.assertIn("\nreturns c = c\n", found["two/twice/Answers.antt"])
        self.assertIn(f"pub {NO_GOAL} : {NO_GOAL}s.{NO_GOAL}\n", found["two/twice/Answers.antt"])
        self.assertIn(f"use Rattle.low.proofs.two.twice.Goals as {NO_GOAL}s\n", found["two/twice/Answers.antt"])

    def test_what_a_trait_declares_has_no_proof(self) -> None:
        source = SOURCE + "\npub trait Three {\n    fn third(&self) -> u8\n        ensures { result ≡ 3 };\n    fn fourth(&self);\n}\n\npub fn law()\n    ensures { Law }\n{}\n"
        self.assertEqual(sorted(self.laid(source, ["two::twice"], {})), ["two/Two/first/Proof.antt", "two/law/Proof.antt", "two/twice/Answers.antt"])

    def test_a_file_brings_its_goals_in_once(self) -> None:
        brought = "use Rattle.low.proofs.two.twice.Goals as goal\n"
        found = self.laid(SOURCE, ["two::twice"], {"two/twice/Answers.antt": brought})["two/twice/Answers.antt"]
        self.assertTrue(found.startswith(brought))
        self.assertEqual(found.count("Goals as"), 1)
        self.assertIn(f"pub {NO_GOAL} : goal.{NO_GOAL}\n", found)

    def test_the_proof_of_a_ring_is_there_or_left_out_as_a_whole(self) -> None:
        source = SOURCE.replace("    #[inline(always)]\n", "    #[cycle(both)]\n").replace("/// Twice", "#[cycle(both)]\n/// Twice")
        for place in ("+both", "two/+both"):
            files = {f"{place}/Answers.antt": "first-returns c = c\n"}
            self.assertIn("first-returns", self.laid(source, ["two::twice"], files)[f"{place}/Answers.antt"])
            self.assertEqual(sorted(self.laid(source, ["two::TwoFrom::from"], files)), [f"{place}/Proof.antt", "two/TwoFrom/from/Answers.antt"])


class Page(unittest.TestCase):
    """The page of wrong bodies."""

    def test_what_the_page_has_otherwise_is_told(self) -> None:
        found = {("low", name): Outcome(name, (Refusal("twice", "returns", "values", ""),), "") for name in ("a_body", "another")}
        with tempfile.TemporaryDirectory() as room:
            write(room, [body("a_body", "twice"), body("another", "twice")], found)
            self.assertEqual(differs(room, [body("a_body", "twice"), body("another", "twice")], found), [])
            self.assertIn("low/another, and there is no such body", differs(room, [body("a_body", "twice")], found)[0])
            self.assertIn("low/a_third", differs(room, [body(name, "twice") for name in ("a_body", "another", "a_third")], found)[0])
            found["low", "another"] = Outcome("another", (Refusal("twice", "overflow", "values", ""),), "")
            self.assertIn("low/another", differs(room, [body("a_body", "twice"), body("another", "twice")], found)[0])

    def test_what_is_not_tried_keeps_its_line(self) -> None:
        every = [body("a_body", "twice"), body("another", "twice")]
        first = {("low", name): Outcome(name, (Refusal("twice", "returns", "values", ""),), "") for name in ("a_body", "another")}
        again = {("low", "another"): Outcome("another", (Refusal("twice", "overflow", "search", ""),), "")}
        with tempfile.TemporaryDirectory() as room:
            write(room, every, first)
            write(room, every, again)
            self.assertEqual(differs(room, every, {**first, **again}), [])
            with open(os.path.join(room, "docs", "reference", "WRONG_BODIES.md"), encoding="utf-8") as it:
                self.assertTrue(it.read().endswith("\n\n2 bodies: 1 by values, 1 by search.\n"))

    def test_a_line_holds_for_each_open_goal(self) -> None:
        first, second = Refusal("twice", "returns", "values", ""), Refusal("twice", "overflow", "search", "")
        for line_of, refusals, others, well in ((second, (first,), (second,), True), (second, (first,), (), False), (first, (first._replace(way="search"),), (), False),
                                                (second, (second._replace(way="limit"),), (), True), (second, (second._replace(way="values"),), (), True), (second, (first, second), (), False)):
            with tempfile.TemporaryDirectory() as room:
                write(room, [body("a_body", "twice")], {("low", "a_body"): Outcome("a_body", (line_of,), "")})
                found = {("low", "a_body"): Outcome("a_body", refusals, "", others)}
                self.assertEqual(differs(room, [body("a_body", "twice")], found) == [], well, (line_of, refusals, others))


COMPARE = "(left.top * right.bottom).cmp(&(right.top * left.bottom))"
BODIES: Dict[str, Tuple[str, str, str, str]] = {
    "right": ("src/fraction.rt", COMPARE, "left.top.cmp(&right.top)", "fraction::compare"),
    "the_same": ("src/fraction.rt", COMPARE, f"let order = {COMPARE}; order", "fraction::compare"),
    "no_field": ("src/fraction.rt", COMPARE, "left.tops.cmp(&right.top)", "fraction::compare"),
    "of_another": ("src/fraction.rt", COMPARE, "left.top.cmp(&right.top)", "logarithm::next_place"),
    "callee": ("src/tally.rt", "from(other).pow(3)", "from(other).pow(2)", "tally::variance_part"),
    "caller": ("src/tally.rt", "tally.d, tally.c);", "tally.d, tally.c); let failing = failing;", "tally::confident"),
    "gone": ("src/fraction.rt", "left.top.is_even()", "true", "fraction::compare"),
}


@unittest.skipUnless(shutil.which("rt"), "the kit isn't here")
class Tried(unittest.TestCase):
    """The script, on a crate that stands on no other."""

    def made(self, room: str, names: List[str]) -> None:
        for part in ("src", "specs", "proofs"):
            shutil.copytree(os.path.join(ROOT, "crates", "fractions", part), os.path.join(room, "crates", "fractions", part))
        for name in ("wrong_bodies", "bodies_laid.py", "bodies_read.py", "bodies_tried.py", "bodies_table.py"):
            os.makedirs(os.path.join(room, "checks"), exist_ok=True)
            shutil.copy2(os.path.join(ROOT, "checks", name), os.path.join(room, "checks", name))
        os.makedirs(os.path.join(room, "house"))
        shutil.copy2(os.path.join(ROOT, "house", "house_crates.py"), os.path.join(room, "house"))
        with open(os.path.join(room, "crates.txt"), "w", encoding="utf-8") as it:
            it.write("fractions:\n")
        os.makedirs(os.path.join(room, "wrong_bodies", "fractions"))
        for name in names:
            file, old, new, refused = BODIES[name]
            with open(os.path.join(room, "wrong_bodies", "fractions", name + ".edit"), "w", encoding="utf-8") as it:
                it.write(f"file: {file}\nold: {old}\nnew: {new}\nrefused: {refused}\n")

    def call(self, room: str, *words: str) -> Tuple[int, str]:
        ran = subprocess.run([os.path.join(room, "checks", "wrong_bodies"), *words], stdout=subprocess.PIPE, stderr=subprocess.STDOUT, universal_newlines=True,
                             env=dict(os.environ, XDG_CACHE_HOME=os.path.join(room, "cache")), check=False)
        return ran.returncode, ran.stdout

    def test_a_wrong_body_is_refused_and_kept(self) -> None:
        with tempfile.TemporaryDirectory() as room:
            self.made(room, ["right"])
            status, said = self.call(room, "--table")
            self.assertEqual((status, said.splitlines()[-1]), (0, "1 passed, 0 failed"), said)
            status, said = self.call(room)
            self.assertEqual((status, said.splitlines()), (0, ["fractions: 1 of 1 refused, as before", "1 passed, 0 failed"]), said)
            os.remove(os.path.join(room, "wrong_bodies", "fractions", "right.edit"))
            self.assertIn("there is no such body", self.call(room)[1])

    def test_a_right_body_stays_proved_beside_the_wrong_one_that_it_calls(self) -> None:
        with tempfile.TemporaryDirectory() as room:
            self.made(room, ["callee", "caller"])
            status, said = self.call(room)
            self.assertEqual(status, 1, said)
            self.assertIn("fractions/caller: NOT REFUSED: tally::confident is still proved", said)
            self.assertIn("fractions: 1 of 2 refused", said)

    def test_what_is_no_wrong_body_fails(self) -> None:
        for name, told in (("the_same", "still proved"), ("no_field", "does not compile"), ("of_another", "still proved"), ("gone", "stands in src/fraction.rt 0 times")):
            with self.subTest(name), tempfile.TemporaryDirectory() as room:
                self.made(room, [name])
                status, said = self.call(room, "fractions")
                self.assertEqual(status, 1, said)
                self.assertIn(told, said)


if __name__ == "__main__":
    unittest.main()
