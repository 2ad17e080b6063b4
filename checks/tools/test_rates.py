"""Looks at what is said of rates and of how many runs see a fact, as test_tools does at the rest. What is due was worked out by hand, and by whole numbers."""
import os
import sys

import looking
from looking import Hunting

sys.path.insert(0, looking.TOOLS)
from cbi_hunt import rates  # noqa: E402

# Of a fact that an input comes to so many times, how many runs of it see it with at least so many per cent. By hand: 0.99^298 = 0.05003 and 0.99^299 = 0.04953; 0.999^2994 = 0.05001 and 0.999^2995 = 0.04996.
RUNS = ((1, 1, 95, 1), (100, 1, 50, 69), (100, 1, 95, 299), (100, 1, 99, 459), (100, 10, 95, 30), (100, 100, 95, 3), (1000, 1, 50, 693), (1000, 1, 95, 2995), (1000, 1, 99, 4603), (1000, 10, 95, 300),
        (1000, 100, 95, 30), (2, 1, 95, 5), (10, 1, 95, 29), (65536, 1, 95, 196327))
# What one run, ten and a hundred see of a fact that occurs once: 1 - 0.99^10 = 0.0956 and 1 - 0.99^100 = 0.6340; 1 - 0.999^10 = 0.00996 and 1 - 0.999^100 = 0.0952.
CHANCES = ((1, 1, 1, 1.0), (100, 1, 1, 0.01), (100, 1, 10, 0.095618), (100, 1, 100, 0.633968), (1000, 1, 1, 0.001), (1000, 1, 10, 0.009955), (1000, 1, 100, 0.095208), (2, 3, 1, 0.875), (4, 1, 2, 0.4375))


class Rates(Hunting):
    def test_how_likely_a_fact_is_seen(self):
        for rate, times, runs, due in CHANCES:
            self.assertAlmostEqual(rates.chance(rate, times, runs), due, places=6)

    def test_how_many_runs_see_a_fact(self):
        """By whole numbers: (D-1)^(mK) * 100 is at most (100-p) * D^(mK), and isn't so for a run fewer."""
        for rate, times, per_cent, due in RUNS:
            self.assertEqual(rates.runs_for(rate, times, per_cent / 100), due, (rate, times, per_cent))
            for runs, enough in ((due, True), (due - 1, False)) if rate < 65536 else ():
                unseen, every = (rate - 1) ** (times * runs), rate ** (times * runs)
                self.assertEqual(unseen * 100 <= (100 - per_cent) * every, enough, (rate, times, per_cent, runs))

    def test_the_table_of_the_page_has_these_numbers(self):
        with open(os.path.join(looking.TOP, "docs", "METHOD.md"), encoding="utf-8") as file:
            rows = [[cell.strip().replace(",", "") for cell in line.strip("|\n").split("|")] for line in file if line.startswith(("| 1 |", "| 100 |", "| 1,000 |"))]
        by_hand = {(rate, times, per_cent): due for rate, times, per_cent, due in RUNS}
        due = [[str(rate), f"{100 / rate:g} %", *(str(by_hand.get((rate, times, per_cent), 1)) for times, per_cent in ((1, 50), (1, 95), (1, 99), (10, 95), (100, 95)))] for rate in (1, 100, 1000)]
        self.assertEqual(rows, due)

    def test_advice_of_counts(self):
        """A run of 1,200,000 visits of 300 sites, half of which it visits 400 times or more: the average site is visited 4,000 times, so at rate 1,000 some 4 visits of it are looked at. For ten looks at the
        site of 400 visits 25 runs are needed; 1 - 0.999^25 = 0.0247."""
        self.assertEqual(rates.advised(rates.Visits(1200000, 300, 400)), (1000, 25))
        self.assertEqual(rates.advice(rates.Visits(1200000, 300, 400), 40), "a run makes 1,200,000 visits of 300 sites, half of these 400 times or more. With --rate 1000 --runs 1000 (25 an input) an input sees half of its sites about "
                         "10 times or more, and a fact that occurs once in it with 2.5 % (95 % need 2995 runs an input)")
        for visits, due in ((rates.Visits(30000, 300, 50), (100, 20)), (rates.Visits(29999, 300, 5), (10, 20)), (rates.Visits(1, 1, 1), (10, 100)), (rates.Visits(10 ** 9, 10, 10 ** 8), (1000, 1))):
            self.assertEqual(rates.advised(visits), due)
        self.assertEqual(rates.more_runs(100, 500, 20), "More runs (--runs): at --rate 100 a fact that occurs once in an input is seen by 25 runs of it with 22 %, and by 299 with 95 % (--runs 5980).")
        self.assertEqual(rates.more_runs(2, 50, 10), "More runs (--runs): at --rate 2 a fact that occurs once in an input is seen by 5 runs of it with 97 %.")

    def test_visits_are_counted_from_a_collection(self):
        """Sites of 3, 1 and 6 visits in one run, and of 5 in another: 15 in two runs, four sites, and half of them 3 times or more."""
        self.write("runs", "cbi-collection 2\nprogram 0\nrun 1 ended 0 label pass work 0 0 0\nsite 0 2 1 0\nsite 1 0 1 0\nsite 4 1 2 3\nrun 2 ended 0 label pass work 0 0 0\nsite 0 5 0 0\nend\n")
        self.assertEqual(rates.visits_in(self.path("runs")), rates.Visits(7.5, 2.0, 3))
        self.write("none", "cbi-collection 2\nprogram 0\nend\n")
        self.assertIsNone(rates.visits_in(self.path("none")))

    def test_a_hunt_with_much_to_look_at_says_so(self):
        """The same with limits that so few runs reach."""
        self.write("few/1", "abc")
        self.write("few/2", "!")
        self.assertNotIn("With --rate", self.hunt("--inputs", "few", due=None))
        script = f"import sys; sys.path.insert(0, {looking.TOOLS!r}); from cbi_hunt import hunting, rates; rates.MANY_VISITS, rates.MANY_MARKS = int(sys.argv.pop(1)), int(sys.argv.pop(1)); sys.exit(hunting.main())"
        for visits, marks, due in ((3, 10 ** 7, "\nruns are slow: a run makes "), (10 ** 9, 3, "\nmemory grows: a run makes ")):
            out, _ = self.call(sys.executable, "-c", script, str(visits), str(marks), "upper.c", "--inputs", "few", due=None)
            self.assertIn(due, out)
            self.assertIn("With --rate 10 --runs ", out.replace("\n", " "))
