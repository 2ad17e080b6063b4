#!/usr/bin/env python3
"""Looks at the scripts of house/ in a small house that is made for each case: above, map, promises, reading and words; and at what editors read of it: tags by Universal
Ctags, colours by Vim. test_house.py runs these too.

    checks/test_house_pages.py [CASE..]
"""
import importlib.machinery
import importlib.util
import os
import shutil
import subprocess
import sys
import unittest

sys.dont_write_bytecode = True
from house_cases import Case, LOW_SPEC, PART_SOURCE, PASSED_SOURCE, ROOT, TOP_SOURCE, WORDS_SOURCE, WORK_SOURCE  # noqa: E402


class Pages(Case):
    """What the scripts of house/ make of the small house."""

    def test_above_lists_what_stands_on_a_crate(self) -> None:
        # `most` stands on `low` by `top` alone
        self.write("crates.txt", "low:\nmost: top\ntop: low\n")
        ran = self.call("house/above", "--list", "low")
        self.assertEqual([row.split()[-1] for row in ran.stdout.splitlines()[1:]], ["top", "most"], ran.stderr)
        self.assertEqual(self.call("house/above", "--list", "none").returncode, 1)

    def test_the_map_has_each_crate_by_its_room_and_each_file_by_its_head(self) -> None:
        self.assertEqual(self.call("house/map", "--write").returncode, 0)
        rows = self.read("docs/reference/MAP.md").splitlines()
        for row in ("## Base", "### `low`", "| `Low` | What is low. |", "## Tops", "The top of a house of two crates."):
            self.assertIn(row, rows)
        self.assertEqual(self.call("house/map").stdout, self.read("docs/reference/MAP.md"))
        self.assertEqual(self.call("house/map", "--check").returncode, 0)
        self.write("crates/low/specs/Low.antt", "-- What is lower." + LOW_SPEC[len("-- What is low."):])
        ran = self.call("house/map", "--check")
        self.assertEqual((ran.returncode, ran.stderr), (1, "docs/reference/MAP.md isn't what house/map makes: house/map --write\n"))

    def test_the_rooms_have_a_line_for_each_crate_and_say_what_no_program_calls(self) -> None:
        """`cbi` calls `top` and that `low`; `laws` has laws alone, one with an allocator; `plain` is called by the program `cases` alone."""
        self.write("crates.txt", "# Base: what is low\nlow:\nlaws: low\nplain: low\n# Tops\ntop: low\ncbi: top\n# Cases\ncases: plain rows\nrows:\n")
        self.write("crates/low/src/low.rt", "pub fn low() -> u8\n{\n    1\n}\n")
        self.write("crates/laws/src/lib.rt", "//! Laws of `low`. They say more; much more.\npub fn first()\n    ensures { IsKept }\n{}\n\npub fn second<B>(alloc: Global)\n{\n    first();\n}\n")
        self.write("crates/plain/src/lib.rt", "//! The same | plainly; slowly.\npub fn plain(n: u8) -> u8\n{\n    n\n}\n")
        self.write("crates/rows/src/lib.rt", "//! Rows.\npub struct Row {}\n")
        for program in ("cbi", "cases"):
            self.write(f"crates/{program}/src/main.rt", f"//! The program `{program}`.\nfn main()\n{{}}\n")
        self.assertEqual(self.call("house/map", "--write").returncode, 0)
        said = self.read("crates/README.md")
        self.assertEqual([row for row in said.splitlines()[4:] if row and row not in ("| Crate | |", "|---|---|")], [
            "## Base: what is low", "| [`low`](low) | What is low |",
            "### Proofs that no program calls", "| [`laws`](laws) | Laws of `low` |",
            "### Code that only examples call", "| [`plain`](plain) | The same \\| plainly |",
            "## Tops", "| [`top`](top) | The top of a house of two crates |", "| [`cbi`](cbi) | The program `cbi` |",
            "## Cases", "| [`cases`](cases) | The program `cases` |", "| [`rows`](rows) | Rows |"])
        self.assertEqual(self.call("house/map", "--rooms").stdout, said)
        self.write("crates/README.md", said + "More.\n")
        ran = self.call("house/map", "--check")
        self.assertEqual((ran.returncode, ran.stderr), (1, "crates/README.md isn't what house/map makes: house/map --write\n"))
        os.remove(os.path.join(self.room, "crates", "README.md"))
        self.assertEqual(self.call("house/map", "--check").returncode, 1)

    def test_promises_has_each_public_function_with_the_names_of_its_clauses(self) -> None:
        self.write("crates/low/src/lib.rt", PASSED_SOURCE)
        self.write("crates/low/src/part.rt", PART_SOURCE)
        self.assertEqual(self.call("house/promises", "--write").returncode, 0)
        rows = [row for row in self.read("docs/reference/PROMISES.md").splitlines() if row.startswith(("#", "| ["))]
        self.assertEqual(rows[1:], [
            "## Base",
            "### `low`",
            "| [`a_law`](../../crates/low/src/part.rt) | A law of `\\|`. | `small` | `first`, `{..}` |",
            "| [`Box::open`](../../crates/low/src/part.rt) | Opens it. |  | `{..}` 2 |",
            "| [`Box`](../../crates/low/src/part.rt) | It is a `Shown`. |  | `shown` |",
            "| [`Box::show`](../../crates/low/src/part.rt) | As `Shown` has it. |  | `told` |",
            "## Tops",
            "### `top`",
            "| [`whole`](../../crates/top/src/lib.rt) | The whole. |  | `deep` |"])

    def test_promises_tells_a_clause_that_has_another_name(self) -> None:
        self.assertEqual(self.call("house/promises", "--write").returncode, 0)
        self.assertEqual(self.call("house/promises", "--check").returncode, 0)
        self.write("crates/top/src/lib.rt", TOP_SOURCE.replace("ensures deep", "ensures deeper"))
        ran = self.call("house/promises", "--check")
        self.assertEqual((ran.returncode, ran.stderr), (1, "docs/reference/PROMISES.md isn't what house/promises prints: house/promises --write\n"))

    def test_promises_names_a_crate_without_clauses(self) -> None:
        self.assertIn("No public function with a clause: `low`.", self.call("house/promises").stdout.splitlines())

    def test_reading_follows_definitions_through_crates(self) -> None:
        ran = self.call("house/reading", "--files", "top::whole")
        self.assertEqual(ran.stdout.splitlines(), [
            "     5 low/specs/Low.antt: IsDeep, IsKept",
            "     2 top/specs/Top.antt: IsWhole",
            "     1 the clauses themselves",
            "     8 lines in 2 files of 2 crates"], ran.stderr)

    def test_reading_follows_what_words_say_of_their_work(self) -> None:
        # the clause names one member of the two
        self.write("crates/command_base/src/work.rt", WORK_SOURCE)
        self.write("crates/top/src/words.rt", WORDS_SOURCE)
        ran = self.call("house/reading", "--files", "top::TopWords.took")
        self.assertEqual(ran.stdout.splitlines(), [
            "     5 low/specs/Low.antt: IsDeep, IsKept",
            "     2 top/specs/Top.antt: IsWhole",
            "     2 the clauses themselves",
            "     9 lines in 2 files of 2 crates"], ran.stderr)

    def test_reading_says_that_a_function_isnt_there(self) -> None:
        ran = self.call("house/reading", "top::nothing")
        self.assertEqual((ran.returncode, ran.stderr), (1, "house/reading: no function top::nothing\n"))

    def test_reading_puts_its_table_into_a_page(self) -> None:
        """Whatever stood between the two lines goes; a page without them is refused, and one with another table is named."""
        loader = importlib.machinery.SourceFileLoader("reading", os.path.join(ROOT, "house", "reading"))
        spec = importlib.util.spec_from_loader("reading", loader)
        assert spec is not None
        reading = importlib.util.module_from_spec(spec)
        loader.exec_module(reading)
        begin, end = "<!-- made by house/reading --table -->", "<!-- end -->"
        self.assertEqual(reading.written(f"# A\n{begin}\n| 1 |\n| 2 |\n{end}\n{end}\n", "| 3 |"), f"# A\n{begin}\n| 3 |\n{end}\n{end}\n")
        with self.assertRaisesRegex(SystemExit, "docs/PROOF.md has no line"):
            reading.written(f"# A\n{end}\n{begin}\n", "| 3 |")
        page = reading.read(reading.PAGE)
        self.assertEqual(reading.written(page, reading.on_page(page)[1]), page)

    def test_words_are_counted_as_written_or_made(self) -> None:
        """`nothing` stands on four pages, of which CHANGELOG is no part of the sum, and `# Architecture`, `### Base`, `low` and `### Tops`, `top` are five words of a fifth page."""
        self.write("docs/METHOD.md", "Two words: -- | `x <= 1` |\n<!-- made: one -->\n| a | b |\n|---|---|\n<!-- end -->\nand <!-- made by house/x -->\nc\n<!-- end -->\n")
        self.write("docs/reference/MAP.md", "all of it made\n")
        self.write("docs/reference/THEOREMS.md", "a law\n")
        ran = self.call("house/words")
        self.assertEqual((ran.returncode, ran.stdout.splitlines()), (0, [
            "written    made  page",
            "      5       0  docs/ARCHITECTURE.md",
            "      5       3  docs/METHOD.md",
            "      2       0  docs/reference/THEOREMS.md (not in the sum)",
            "      1       0  CHANGELOG.md (not in the sum)",
            "      1       0  CONTRIBUTING.md",
            "      1       0  README.md",
            "      1       0  docs/PROOF.md",
            "      0       4  docs/reference/MAP.md",
            "words: 13 written of 45,000; 7 made"]), ran.stderr)

    def test_a_part_that_is_made_stands_on_one_page(self) -> None:
        self.write("checks/test_documents.py", "")
        shutil.copy(os.path.join(ROOT, "checks", "test_documents.py"), os.path.join(self.room, "checks", "test_documents.py"))
        part = "<!-- made: {} -->\n1\n<!-- end -->\n"
        self.write("docs/EVIDENCE.md", part.format("one") + part.format("two"))
        self.write("docs/reference/FAULTS.md", part.format("three"))
        for second, lines in (("three", []), ("two", ["docs/reference/FAULTS.md: docs/EVIDENCE.md has the part two already"])):
            self.write("docs/reference/FAULTS.md", part.format(second))
            ran = self.call("checks/test_documents.py")
            self.assertEqual([line for line in ran.stdout.splitlines() if " has the part " in line], lines, ran.stderr)
            self.assertIn("words: 8 written of 45,000; 3 made", ran.stdout.splitlines())

    def test_more_words_than_the_limit_are_refused(self) -> None:
        """The four other pages have five words and three times one: so 44,992 fit, and no more."""
        for count, line, status in ((44992, "words: 45,000 written of 45,000; 0 made\n", 0), (44993, "words: 45,001 written of 45,000, 1 too many; 0 made\n", 1)):
            self.write("examples/bc/README.md", "word " * count)
            ran = self.call("house/words", "--check")
            self.assertEqual((ran.returncode, ran.stdout), (status, line), ran.stderr)
        self.assertEqual(self.call("house/words", "--chekc").returncode, 1)

    def test_tags_lead_to_definitions_and_functions(self) -> None:
        said = subprocess.run(["ctags", "--version"], stdout=subprocess.PIPE, text=True).stdout if shutil.which("ctags") else ""
        if "Universal Ctags" not in said:
            self.skipTest("there is no Universal Ctags (universal-ctags)")
        shutil.copytree(os.path.join(ROOT, ".ctags.d"), os.path.join(self.room, ".ctags.d"))
        subprocess.run(["ctags", "-R", "crates"], cwd=self.room, check=True)
        with open(os.path.join(self.room, "tags"), encoding="utf-8") as it:
            found = {tuple(row.split("\t")[i] for i in (0, 1)) for row in it if not row.startswith("!")}
        self.assertEqual(found, {("IsDeep", "crates/low/specs/Low.antt"), ("IsKept", "crates/low/specs/Low.antt"), ("kept", "crates/low/specs/Low.antt"),
                                 ("much", "crates/low/specs/Low.antt"), ("IsWhole", "crates/top/specs/Top.antt"), ("whole", "crates/top/src/lib.rt")})

    def test_colours_tell_definitions_from_comments_and_clauses_from_code(self) -> None:
        said = subprocess.run(["vim", "--version"], stdout=subprocess.PIPE, text=True).stdout if shutil.which("vim") else ""
        if "+syntax" not in said:
            self.skipTest("there is no Vim with syntax (vim)")
        for page, words in (("crates/low/specs/Low.antt", {(1, "What"): "anttComment", (2, "use"): "anttImport", (5, "abbrev"): "anttModifier", (6, "Unit"): "anttSort",
                                                           (9, "record"): "anttKeyword", (9, "IsDeep"): "anttConstructor", (10, "kept"): "anttDefined"}),
                            ("crates/top/src/lib.rt", {(2, "ghost"): "rattleGhost", (5, "pub"): "rustKeyword", (6, "ensures"): "rattleClause"})):
            asked = [f"call writefile([synIDattr(synID({line}, stridx(getline({line}), '{word}') + 1, 1), 'name')], 'said', 'a')" for line, word in words]
            self.write("ask.vim", "\n".join(["set nocompatible encoding=utf-8", f"set runtimepath^={ROOT}/house/vim", "filetype plugin on", "syntax on", f"edit {page}",
                                             *asked, "qall!"]) + "\n")
            subprocess.run(["vim", "-es", "-u", "NONE", "-i", "NONE", "-S", "ask.vim"], cwd=self.room, stdin=subprocess.DEVNULL, check=True)
            with open(os.path.join(self.room, "said"), encoding="utf-8") as it:
                self.assertEqual(it.read().splitlines(), list(words.values()))
            os.remove(os.path.join(self.room, "said"))


if __name__ == "__main__":
    unittest.main(argv=[sys.argv[0], *("Pages." + it if "." not in it else it for it in sys.argv[1:])])
