#!/usr/bin/env python3
"""Looks at checks/house, in a small house that is made for each case; and at the scripts of house/ by test_house_pages.py.

    checks/test_house.py [CASE..]
"""
import os
import sys
import unittest

sys.dont_write_bytecode = True
from house_cases import Case, LOW_LEMMA, PICTURE, TOP_LEMMA, TOP_SOURCE, TOP_SPEC  # noqa: E402
from test_house_pages import Pages  # noqa: E402, F401


class House(Case):
    """What checks/house says of the small house."""

    def test_a_house_without_faults_passes(self) -> None:
        ran = self.call("checks/house")
        self.assertEqual((ran.stdout, ran.returncode), ("house: 0 new, 0 in all\n", 0), ran.stderr)

    def test_a_long_line_of_a_definition_is_told(self) -> None:
        self.write("crates/top/specs/Top.antt", TOP_SPEC + "-- " + "x" * 158 + "\n")
        self.told("long-line crates/top/specs/Top.antt: 1")

    def test_a_line_of_160_columns_is_none(self) -> None:
        self.write("crates/top/specs/Top.antt", TOP_SPEC + "-- " + "x" * 157 + "\n")
        self.assertEqual(self.call("checks/house").returncode, 0)

    def test_a_function_of_41_lines_is_told(self) -> None:
        body = "    let x = 1;\n" * 39
        self.write("crates/top/src/more.rt", "fn long()\n    ensures { IsWhole }\n{\n" + body + "}\n")
        self.told("long-function crates/top/src/more.rt:long: 1")

    def test_a_function_of_40_lines_is_none(self) -> None:
        body = "    let x = 1;\n" * 38
        self.write("crates/top/src/more.rt", "fn long()\n{\n" + body + "}\n")
        self.assertEqual(self.call("checks/house").returncode, 0)

    def test_a_file_of_801_lines_is_told(self) -> None:
        self.write("crates/top/src/more.rt", "// a\n" * 801)
        self.told("large-file crates/top/src/more.rt: 1")

    def test_a_name_with_two_meanings_is_told(self) -> None:
        self.write("crates/top/specs/Top.antt", TOP_SPEC + "\nabbrev pub IsKept : Type 0\nIsKept = IsWhole []\n\nabbrev pub Uses : Type 0\nUses = IsKept\n"
                   + "\nabbrev pub Again : Type 0\nAgain = Uses\n\nabbrev pub Both : Type 0\nBoth = Again × Both\n")
        self.assertIn("two-meanings IsKept: 2", self.call("checks/house").stdout)

    def test_a_name_that_a_crate_takes_from_two_is_told(self) -> None:
        # neither of the two sees the other
        self.write("crates.txt", "# Base\nlow:\nside:\n# Tops\ntop: low side\n")
        self.write("crates/side/src/lib.rt", "//! What is beside it.\n")
        self.write("crates/side/specs/Side.antt", "-- What is beside it.\nabbrev pub IsKept : Type 0\nIsKept = Unit {0}\n")
        self.write("crates/top/specs/Over.antt", "-- Over it.\nuse Rattle.low.specs.Low.{IsKept}\n\nabbrev pub IsOver : Type 0\nIsOver = IsKept [] × IsWhole []\n")
        self.write("crates/top/src/more.rt", "fn over()\n    ensures { IsOver }\n{\n}\n")
        self.write("crates/top/src/side.rt", "ghost use Rattle.side.specs.Side.{IsKept};\n\nfn beside()\n    ensures { IsKept }\n{\n}\n")
        self.told("two-meanings IsKept: 2")
        os.remove(os.path.join(self.room, "crates/top/specs/Over.antt"))
        self.write("crates/top/src/low.rt", "ghost use Rattle.low.specs.Low.{IsDeep};\n\nfn deep()\n    ensures { IsDeep }\n{\n}\n")
        self.assertEqual(self.call("checks/house").stdout, "house: 0 new, 0 in all\n")

    def test_a_definition_that_is_named_by_one_word_is_told(self) -> None:
        self.write("crates/top/specs/Top.antt", TOP_SPEC + "\nabbrev pub left : List ℕ → List ℕ\nleft xs = left_over xs\n\nabbrev pub left_over : List ℕ → List ℕ\nleft_over xs =\n"
                   + "    record { rest = left xs }\n\npub record IsLeft (xs : List ℕ) : Type 0 where\n  pub rest : IsWhole (left xs)\n"
                   + "\nabbrev pub IsOver : Type 0\nIsOver = IsLeft [] × IsOver\n")
        self.told("bare-word crates/top/specs/Top.antt:left: 1")

    def test_lemmas_that_say_the_same_are_told(self) -> None:
        self.write("crates/low/proofs/Low.antt", LOW_LEMMA)
        self.write("crates/top/proofs/Top.antt", TOP_LEMMA)
        self.told("said-twice low/Low.antt:kept top/Top.antt:left: 2")

    def test_the_same_words_of_something_else_are_another_lemma(self) -> None:
        self.write("crates/low/proofs/Low.antt", LOW_LEMMA)
        self.write("crates/top/proofs/Top.antt", TOP_LEMMA.replace("Rattle.low.specs.Low.{IsKept}", "Rattle.top.specs.Top.{IsWhole as IsKept}"))
        self.assertEqual(self.call("checks/house").stdout, "house: 0 new, 0 in all\n")
        self.write("crates/top/proofs/Top.antt", TOP_LEMMA.replace("a ≡ b", "b ≡ a"))
        self.assertEqual(self.call("checks/house").stdout, "house: 0 new, 0 in all\n")

    def test_an_import_that_nothing_uses_is_told(self) -> None:
        self.write("crates/top/specs/Top.antt", TOP_SPEC.replace("{IsDeep}", "{IsDeep, IsKept}") + "-- IsKept\n")
        self.told("unused-import top: 1")
        self.write("crates/top/specs/Top.antt", TOP_SPEC)
        self.write("crates/top/src/lib.rt", "ghost use Rattle.low.specs.Low.{IsDeep};\n" + TOP_SOURCE)
        self.told("unused-import top: 1")
        # two signs in a string begin no comment
        self.write("crates/top/src/lib.rt", TOP_SOURCE)
        self.write("crates/top/specs/Top.antt", TOP_SPEC.replace("{IsDeep}", "{IsDeep, IsKept}")
                   + "\nabbrev pub IsSaid : Type 0\nIsSaid = Says \"--turns\" × IsKept [] × IsSaid\n")
        self.assertEqual(self.call("checks/house").stdout, "house: 0 new, 0 in all\n")

    def test_a_file_that_isnt_there_is_told_where_a_document_names_it(self) -> None:
        self.write("CONTRIBUTING.md", "`top/specs/Top.antt`, `specs/Low.antt`, `Top.antt`, `crates/low/src/lib.rt`\n")
        self.assertEqual(self.call("checks/house").returncode, 0)
        self.write("CONTRIBUTING.md", "`top/specs/Tip.antt`\n")
        self.told("stale-file CONTRIBUTING.md:top/specs/Tip.antt: 1")

    def test_a_crate_that_a_recipe_leaves_out_is_told(self) -> None:
        recipe = "## Add a depth\n\n`grep -rlw IsDeep crates --include=*.antt` tells where:\n\n1. `low/specs/Low.antt`.\n{}\n## Others\n\n`top`\n"
        self.write("CONTRIBUTING.md", recipe.format(""))
        self.told("recipe CONTRIBUTING.md:top: 1")
        self.write("CONTRIBUTING.md", recipe.format("2. `top`.\n"))
        self.assertEqual(self.call("checks/house").returncode, 0)

    def test_what_nothing_names_is_told(self) -> None:
        self.write("crates/top/specs/Top.antt", TOP_SPEC + "\nabbrev pub Lonely : Type 0\nLonely = IsWhole []\n")
        self.told("unnamed crates/top/specs/Top.antt:Lonely: 1")

    def test_that_a_page_passes_a_name_on_is_no_use_of_it(self) -> None:
        self.write("crates/top/specs/Top.antt", TOP_SPEC + "\nabbrev pub Lonely : Type 0\nLonely = IsWhole []\n")
        self.write("crates/top/specs/Words.antt", "-- The words.\npub use Rattle.top.specs.Top.{Lonely}\n")
        self.told("unnamed crates/top/specs/Top.antt:Lonely: 1")

    def test_an_edge_that_nothing_uses_is_told(self) -> None:
        self.write("crates.txt", "# Base\nlow:\nother:\n# Tops\ntop: low other\n")
        self.write("crates/other/src/lib.rt", "//! Another.\n")
        self.told("unused-edge top:other: 1")

    def test_an_edge_to_a_later_room_is_told(self) -> None:
        self.write("crates.txt", "# Base\nlow: top\n# Tops\ntop:\n")
        self.write("crates/low/src/lib.rt", "//! Low.\nuse top::it;\n")
        self.told("edge-up low:top: 1")

    def test_a_number_of_a_paper_is_told(self) -> None:
        self.write("README.md", "As T{}.4 says.\n".format(3))
        self.told("number README.md: 1")

    def test_a_room_that_the_architecture_has_no_heading_of_is_told(self) -> None:
        self.write("docs/ARCHITECTURE.md", PICTURE.replace("### Tops", "Tops"))
        self.told("off-the-map Tops: 1")

    def test_a_crate_without_a_room_or_a_folder_is_told(self) -> None:
        self.write("crates.txt", "low:\n\n# Tops: what is above\ntop: low\n")
        self.told("off-the-map low: 1")
        self.write("crates.txt", "# Base\nlow:\nnone:\n# Tops\ntop: low\n")
        self.told("off-the-map none (no such folder): 1")

    def test_a_word_of_this_house_is_told_in_a_document(self) -> None:
        for page, text, line in (
                ("docs/reference/MACHINE.md", "Nine minutes of the clock.\n", "docs/reference/MACHINE.md:of the clock: 1, say wall clock"),
                ("docs/reference/COST.md", "Seconds of a processor and\nminutes of\na Processor.\n", "docs/reference/COST.md:of a processor: 2, say CPU seconds, CPU minutes"),
                ("README.md", "It is reckoned.\n", "README.md:reckoned: 1, say computed, counted"),
                ("CONTRIBUTING.md", "As it was read\noff.\n", "CONTRIBUTING.md:read off: 1, say measured, taken from"),
                ("CHANGELOG.md", "What was due came.\n", "CHANGELOG.md:what was due: 1, say what was expected"),
                ("bench/one/README.md", "That is what is due.\n", "bench/one/README.md:what is due: 1, say what is expected"),
                ("examples/README.md", "All rows were met.\n", "examples/README.md:were met: 1, say passed, came"),
                ("docs/SCALE.md", "Ten seconds by the\nclock.\n", "docs/SCALE.md:by the clock: 1, say wall clock"),
                ("docs/METHOD.md", "Forms that Could not be had.\n", "docs/METHOD.md:could not be had: 1, say did not work, is not possible"),
                ("crates/README.md", "Who is told of it.\n", "crates/README.md:is told of it: 1, say what reports it, and to whom")):
            with self.subTest(page):
                self.write(page, text)
                self.told(f"house-word {line}")
                self.write(page, "nothing\n")

    def test_the_fields_words_and_longer_ones_are_no_word_of_this_house(self) -> None:
        self.write("docs/reference/MACHINE.md", "Wall clock; CPU minutes; a clockwork of the clocks; unreckoned; what is due process.\n".replace("what is due", "what isn't due"))
        self.write("checks/more.py", "# reckoned, as the text of a script may say\n")
        self.assertEqual(self.call("checks/house").stdout, "house: 0 new, 0 in all\n")

    def test_what_is_known_passes_for_a_reason_and_no_more_of_it(self) -> None:
        self.write("crates/top/specs/Top.antt", TOP_SPEC + "-- " + "x" * 158 + "\n")
        self.assertEqual(self.call("checks/house", "--write").returncode, 0)
        self.told("long-line crates/top/specs/Top.antt: checks/house.known says no reason")
        self.write("checks/house.known", "long-line crates/top/specs/Top.antt 1 # a word of 158 letters\n")
        self.assertEqual(self.call("checks/house").returncode, 0)
        self.assertEqual(self.call("checks/house", "--write").returncode, 0)
        with open(os.path.join(self.room, "checks", "house.known"), encoding="utf-8") as it:
            self.assertEqual(it.read(), "long-line crates/top/specs/Top.antt 1 # a word of 158 letters\n")
        self.write("crates/top/specs/Top.antt", TOP_SPEC + ("-- " + "x" * 158 + "\n") * 2)
        self.told("long-line crates/top/specs/Top.antt: 2, known are 1")

    def test_a_field_is_no_definition_where_its_record_has_a_long_head(self) -> None:
        self.write("crates/top/specs/Top.antt", TOP_SPEC + "\npub record IsLong (n : ℕ)\n    (m : ℕ) : Type 0 where\n  pub lonely : IsWhole []\n\nabbrev pub Uses : Type 0\nUses = IsLong 0 0\n"
                   + "\nabbrev pub Both : Type 0\nBoth = Uses × Both\n")
        self.assertEqual(self.call("checks/house").stdout, "house: 0 new, 0 in all\n")

    def test_a_field_that_is_given_names_no_definition_of_its_own(self) -> None:
        proof = "lone : IsWhole []\nlone = whole\n\nuser : IsWhole (1 ∷ [])\nuser =\n      lone at (record { one = whole })\n\nlast : IsWhole (2 ∷ [])\nlast = user last\n"
        self.write("crates/top/proofs/Top.antt", proof)
        self.assertEqual(self.call("checks/house").stdout, "house: 0 new, 0 in all\n")

    def test_a_worked_example_stands_for_itself(self) -> None:
        self.write("crates/top/proofs/Examples.antt", "worked : IsWhole []\nworked = whole\n")
        self.assertEqual(self.call("checks/house").returncode, 0)
        self.write("crates/top/proofs/Lemmas.antt", "lemma : IsWhole []\nlemma = whole\n")
        self.told("unnamed crates/top/proofs/Lemmas.antt:lemma: 1")


if __name__ == "__main__":
    unittest.main(argv=[sys.argv[0], *("House." + it if "." not in it else it for it in sys.argv[1:])])
