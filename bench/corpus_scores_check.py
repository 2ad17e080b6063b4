#!/usr/bin/env python3
"""Looks whether places, chance, thinning and the sign test are counted as docs/EVIDENCE.md says; what is due was worked out by hand.

usage: corpus_scores_check.py
"""
import itertools
import json
import os
import tempfile
import unittest
from typing import Any, Dict, Optional

import corpus_listed
import corpus_results
import corpus_scores as scores
import corpus_words
from cbi_show.bugs import Also, Found
from corpus_collections import Tallies, Tally
from corpus_scores import Place, Target
from corpus_subject import Built


class Chance(unittest.TestCase):
    def test_it_is_the_share_of_drawings_that_have_a_right_line(self) -> None:
        for coded, right, most in ((7, 2, 3), (9, 1, 4), (6, 6, 2), (8, 3, 8), (5, 0, 3)):
            drawings = list(itertools.combinations(range(coded), most))
            hits = sum(min(drawing) < right for drawing in drawings)
            self.assertAlmostEqual(scores.within_by_chance(right, coded, most), hits / len(drawings))

    def test_eleven_lines_of_180_are_hit_by_five_in_27_percent(self) -> None:
        # 1 - (169 168 167 166 165) / (180 179 178 177 176)
        self.assertAlmostEqual(scores.within_by_chance(11, 180, 5), 1 - 169 * 168 * 167 * 166 * 165 / (180 * 179 * 178 * 177 * 176))

    def test_more_lines_than_there_are_find_it(self) -> None:
        self.assertEqual(scores.within_by_chance(1, 4, 10), 1.0)

    def test_the_sign_test_is_the_sum_of_a_row_of_pascals_triangle(self) -> None:
        self.assertEqual(corpus_words.by_chance(7, 0), 1 / 128)
        self.assertEqual(corpus_words.by_chance(4, 1), 6 / 32)


class Listed(unittest.TestCase):
    """What `cbi lines` and `cbi bugs` print as places of the author's text, whose line 40 is line 2 of the ported one."""
    built = Built("", "", [None, 40, None])

    def test_a_place_has_the_line_of_the_author_or_none(self) -> None:
        for line, function, due in ((2, "main", 40), (1, "main", None), (2, "cbi_load", None), (9, "main", None)):
            self.assertEqual(corpus_listed.place_of(Found(7, function, line, 3, 1, 4, 6, 340277, "if is true"), self.built), Place(due, function, "if is true", 3, 1, 7, 340277))
        self.assertEqual(corpus_listed.also_of(Also("main", 2, 3, 1, 9, "x < y"), self.built), Place(40, "main", "x < y", 3, 1, -1, 9))

    def test_the_places_of_bugs_stand_as_they_are_printed(self) -> None:
        one, two, three, four = (Place(line, "main", "", 1, 0, line) for line in (1, 2, 3, 4))
        found = corpus_listed.Pointed([four], [[one, two], [three]]).lists()
        self.assertEqual(found, {"lines": [four], "bugs": [one, three], "also": [one, two, three]})


class Lists(unittest.TestCase):
    coded = list(range(1, 41))
    target = Target({20}, set(range(15, 26)), {18, 19, 20, 21})

    def test_equals_have_their_mean_place(self) -> None:
        # one line above; four equals, one of them the fault's: 1 + 5 / 2; two of them near: 1 + 5 / 3
        found = scores.found_by_lines({30: 2.0, 20: 1.0, 24: 1.0, 1: 1.0, 2: 1.0}, self.target, self.coded)
        self.assertEqual((found.line, found.near, found.function), (3.5, 1 + 5 / 3, 3.5))
        self.assertEqual(found.alone, 3.5 / 40)

    def test_lines_around_are_read_at_each_place(self) -> None:
        # line 2 has 1 to 7 around it, and 21 comes to 20 as the second of its own
        found = scores.found_by_lines({2: 2.0, 21: 1.0}, self.target, self.coded)
        self.assertEqual(found.walk, (7 + 2) / 40)
        # the fault's line isn't in the list: two above it, and then one of 38 by chance
        self.assertEqual(found.alone, (2 + 39 / 2) / 40)

    def test_one_line_stands_for_three_of_its_function(self) -> None:
        functions = {line: "f" if line < 20 else "g" for line in self.coded}
        self.assertEqual(scores.thinned([10, 13, 14, 7, 6, 19, 20, 16], functions), [10, 14, 6, 19, 20])

    def test_a_thinned_list_has_its_places(self) -> None:
        functions = {line: "f" for line in self.coded}
        # 23 takes 20 out of the list, and is near itself
        found = scores.found_by_thinned({1: 9.0, 2: 8.0, 23: 7.0, 20: 6.0}, self.target, self.coded, functions)
        self.assertEqual((found.line, found.near, found.function), (None, 2.0, None))

    def test_the_chi_square_of_a_table(self) -> None:
        self.assertEqual(scores.strength(4, 0, 4, 6), 1.0)
        # e = 3 * 6 - 1 * 4 = 14; 196 / (4 * 6 * 4 * 6)
        self.assertAlmostEqual(scores.strength(3, 1, 4, 6), 196 / 576)
        self.assertEqual([scores.strength(1, 5, 4, 6), scores.strength(4, 6, 4, 6), scores.strength(2, 0, 4, 0)], [0.0, 0.0, 0.0])

    def test_a_line_has_its_best_predicate(self) -> None:
        ways = scores.by_line(Tallies({1: Tally(4, 0, 4, 3), 2: Tally(3, 1, 4, 3), 3: Tally(1, 0, 1, 0)}, 4, 6), {1: 5, 2: 5, 3: None})
        self.assertEqual(ways["chi"], {5: 1.0})
        self.assertEqual(ways["truth"], {5: 1.0})
        self.assertAlmostEqual(ways["reach"][5], 4 / (4 * 7) ** 0.5)


class Words(unittest.TestCase):
    def test_readme_has_three_ways_of_the_faults_that_were_kept_back_last(self) -> None:
        """Of two faults with ten lines of code each a way is right where its place is five at most. By chance five of ten lines have the one right line of a function in 1/2, each, and all near ones."""
        def fault(program: str, rows: Optional[int], lines: int, ochiai: float) -> Dict[str, Any]:
            ways = {"rows 1 10": rows, "card 1 10": 1, "lines 1 10": lines, "Ochiai 10": ochiai}
            return {"program": program, "right": {"coded": 10, "function": 1, "line": 1, "near": 10}, "ways": {way: {"function": place, "line": place, "near": 5} for way, place in ways.items()}}

        self.assertEqual(corpus_words.headline_in_short([fault("a", None, 5, 5.5), fault("b", 6, 1, 1.5)], 10), """\
2 faults in 2 programs, 10 runs each, kept back until the tool was made. By chance: 1.0, 1.0, 2.0.

| Among the first five | function | line | within five lines |
|---|---|---|---|
| rows of `rank` | 0 | 0 | 2 |
| `lines` | 2 | 2 | 2 |
| lines by Ochiai over gcov | 1 | 1 | 2 |""")

    def test_aims_that_were_missed_stand_apart(self) -> None:
        """Of two faults at once one has a row of its own among the first five, as one has a bug of its own; one row is near, so three bugs were wanted that have a place near, and two have."""
        three = [{"faults": [{"own": 1, "near": 3, "printed": {"own": 6, "named": 1}}, {"own": 9, "near": 8, "printed": {"own": 2, "named": 4}}]}]
        head = "| Aim | wanted | reached |\n|---|---|---|\n"
        self.assertEqual(corpus_words.aims([], [], [], three, 10, True), head + "| of 2 faults, three at once: a bug of its own among the first five, as often as a row | 1 | 1 |")
        self.assertEqual(corpus_words.aims([], [], [], three, 10, False), head + "| the same with one of its places near, three times as often as a row is near | 3 | 2 |")


class Kept(unittest.TestCase):
    def loaded(self, text: str) -> corpus_results.Results:
        with tempfile.TemporaryDirectory() as folder:
            path = os.path.join(folder, "r")
            with open(path, "w", encoding="ascii") as file:
                file.write(text)
            return corpus_results.load(path)

    def test_an_older_file_is_read_as_one_of_today(self) -> None:
        ways = {"rows 1 10": {"line": None, "near": 1.0, "function": 1.0, "exam": 0.25}, "truth 1 10": {"line": 1, "near": 1, "function": 1, "exam": 0.5, "walk": 0.5},
                "Ochiai 10": {"line": 1, "near": 1, "function": 1, "exam": 0.125, "walk": 0.75},
                "chance": {"line": 21.0, "near": 42 / 12, "function": 42 / 5, "exam": 0.5}}
        found = self.loaded(json.dumps({"faults": {"a/b": {"coded": list(range(41)), "ways": ways}}}))["faults"]["a/b"]
        self.assertEqual([(found["ways"][way]["walk"], found["ways"][way]["alone"]) for way in ("rows 1 10", "truth 1 10", "Ochiai 10")],
                         [(0.25, None), (0.5, None), (0.75, 0.125)])
        self.assertEqual(found["right"], {"coded": 41, "line": 1, "near": 11, "function": 4})
        self.assertNotIn("chance", found["ways"])
        self.assertEqual(corpus_results.as_of_today(json.loads(json.dumps(found))), found)

    def test_what_is_no_file_of_results_is_refused(self) -> None:
        for text in ("", "no", "[]", '{"faults": {"a": 1}}', '{"faults": []}'):
            with self.subTest(text), self.assertRaises(corpus_results.ResultsError):
                self.loaded(text)


if __name__ == "__main__":
    unittest.main()
