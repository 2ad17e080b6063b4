"""Looks at suspicious lines and bugs, and at the tests of chance, as test_tools does at the rest. What is due was worked out by hand."""
import fractions
import os
import random
import shutil
import sys

import looking
from looking import Case, Hunting, call

sys.path.insert(0, looking.TOOLS)
import cbi_show.answer  # noqa: E402
import cbi_show.bugs  # noqa: E402
import cbi_show.seen  # noqa: E402
import cbi_show.where  # noqa: E402
import cbi_show.wording  # noqa: E402
from cbi_show import evidence, files, reports, rows, told  # noqa: E402
from cbi_show.bugs import Also, Bug, Bugs, Found, Lines, Listed  # noqa: E402
from cbi_show.files import Fault, Program, Run, Site  # noqa: E402

# A program of two conditions: predicates 0 and 1 of line 2, 2 and 3 of line 3.
TWO = Program("0", ["main"], [Site(0, "branches", "main", 2, 0, ("if",), False), Site(1, "branches", "main", 3, 0, ("if",), False)])
TWO_TEXT = "int main(void){int a=getchar();int b=getchar();\nif(a);\nif(b);\nreturn 0;}\n"
# One of a pair (predicates 0 to 5), a result (6 to 11) and two conditions (12 and 13, 14 and 15), at four places.
FOUR = Program("0", ["f", "g"], [Site(0, "pairs", "f", 10, 0, ("x", "y"), False), Site(1, "returns", "f", 20, 0, ("h",), False),
                                 Site(2, "branches", "f", 30, 0, ("if",), False), Site(3, "branches", "g", 30, 0, ("while",), False)])
# Three signs && on one line, of predicates 0 to 5, and a condition there, of 6 and 7.
SIGNS = Program("0", ["main"], [Site(number, "branches", "main", 5, number, ("if" if number == 3 else "&&",), False) for number in range(4)])
YES, NO = (1, 0, 0), (0, 1, 0)
NONE = Listed(Lines(0, 0, 0, []), Bugs(0, 0, [], 0))


def run_of(number, failing, outcome="ended 0", **sites):
    """A run: `s0=YES` has the site 0 true."""
    return Run(number, outcome, "fail" if failing else "pass", {int(name[1:]): counters for name, counters in sites.items()})


def collected(runs, identity="0"):
    """These runs as a collection."""
    lines = [f"run {run.number} {run.outcome} label {run.label} work 0 0 0\n" + "".join(f"site {site} {one[0]} {one[1]} {one[2]}\n" for site, one in sorted(run.sites.items())) for run in runs]
    return f"cbi-collection 2\nprogram {identity}\n" + "".join(lines) + "end\n"


def table_of(program, runs, left_out=frozenset()):
    table = reports.Table(program, left_out)
    for run in runs:
        table.add(run)
    return table


# Four runs fail. At line 2 `if` is true in three of them and in one of six others; at line 3 two failing runs look, of which one has it true, and all six others, in which it is false.
RUNS = [run_of(1, True, s0=YES, s1=NO), run_of(2, True, s0=YES), run_of(3, True, s0=YES), run_of(4, True, s0=NO, s1=YES), run_of(5, False, s0=YES, s1=NO)]
RUNS += [run_of(number, False, s0=NO, s1=NO) for number in range(6, 11)]
# By hand: F = 4 and S = 6. `if is true` of line 2: e = 3 * 6 - 1 * 4 = 14, and 196 / (24 * 4 * 6) = 0.3402777. Of line 3: e = 6, and 36 / (24 * 1 * 9) = 1 / 6.
LINES = Lines(4, 6, 2, [Found(0, "main", 2, 3, 1, 4, 6, 340277, "if is true"), Found(2, "main", 3, 1, 0, 2, 6, 166666, "if is true")])
# The first round takes runs 1 to 3. Then F = 1, and N = 7: line 2 is false in run 4 and in five others, 1 / 36; line 3 is true in it alone, 36 / 36.
BUGS = Bugs(4, 6, [Bug(Found(0, "main", 2, 3, 1, 4, 6, 340277, "if is true"), 1, []), Bug(Found(2, "main", 3, 1, 0, 1, 6, 1000000, "if is true"), 4, [])], 0)


class Lists(Case):
    """What `cbi lines` and `cbi bugs` print, as it is asked for and read."""

    def listed(self, runs, left_out=frozenset()):
        program = self.transform(TWO_TEXT, "full", "branches")
        collection = self.write("runs", collected(runs, files.read_program(program).identity))
        return cbi_show.bugs.list_runs(looking.CBI, program, collection, left_out, self.room)

    def test_those_of_ten_runs(self):
        self.assertEqual(self.listed(RUNS), (LINES, BUGS))
        self.assertEqual(sorted(os.listdir(self.room)), ["bugs", "lines", "prog.c", "prog.cbi", "runs"])
        self.assertEqual(cbi_show.bugs.read_listed(self.room), (LINES, BUGS))

    def test_what_runs_saw_at_sites_that_are_left_out_counts_nowhere(self):
        """Without line 2: line 3 is true in run 4 of four failing runs and in no other, and false in run 1 and in all six others, which is no sign of failing. Runs 2 and 3 are left."""
        lines, bugs = self.listed(RUNS, frozenset([0]))
        self.assertEqual(lines, Lines(4, 6, 1, LINES.lines[1:]))
        self.assertEqual(bugs, Bugs(4, 6, [Bug(LINES.lines[1], 4, []), Bug(Found(3, "main", 3, 1, 6, 1, 6, 0, "if is false"), 1, [])], 2))
        self.assertEqual(sorted(os.listdir(self.room)), ["bugs", "lines", "prog.c", "prog.cbi", "runs"])

    def test_a_collection_without_sites_has_its_runs(self):
        self.write("runs", "cbi-collection 2\nprogram 0\nrun 7 ended 0 label fail work 0 0 0\nsite 1 1 0 0\nsite 10 1 0 0\nsite 11 1 0 0\nend\n")
        cbi_show.bugs.without_sites(self.path("runs"), frozenset([1, 11]), self.path("rest"))
        self.assertEqual(self.read("rest"), b"cbi-collection 2\nprogram 0\nrun 7 ended 0 label fail work 0 0 0\nsite 10 1 0 0\nend\n")

    # A result whose call has a blank in its text is told as it stands.
    TEXT = ("bugs 9 4\nbug 1 97 main 41 8 0 8 3 871428 first 2 find <= 0\nalso find 16 8 2 311111 if is false\nalso main 37 7 3 9 c == 63\n"
            "bug 2 3 set 24 1 1 1 4 100000 first 5 if is true\nrest 0\nend\n")

    def test_bugs_are_read(self):
        self.write("bugs", self.TEXT)
        self.assertEqual(cbi_show.bugs.read_bugs(self.path("bugs")), Bugs(9, 4, [
            Bug(Found(97, "main", 41, 8, 0, 8, 3, 871428, "find <= 0"), 2, [Also("find", 16, 8, 2, 311111, "if is false"), Also("main", 37, 7, 3, 9, "c == 63")]),
            Bug(Found(3, "set", 24, 1, 1, 1, 4, 100000, "if is true"), 5, [])], 0))

    def test_what_has_another_form_is_a_fault(self):
        for old, new in (("bugs 9 4", "bugs 9"), ("bugs 9 4", "lines 9 4"), ("rest 0\n", ""), ("end\n", ""), ("end\n", "end\nend\n"), ("bug 2", "bug 3"), ("also main 37 7 3 9 c", "also main 37 7 3"),
                         ("first 5", "last 5"), ("bug 1 97 main", "bug 1 main 97"), ("bug 1 97 main 41 8 0 8 3 871428 first 2 find <= 0\n", "")):
            self.assertIn(old, self.TEXT)
            self.write("bugs", self.TEXT.replace(old, new))
            with self.assertRaisesRegex(Fault, "bugs: it hasn't the form of what cbi bugs prints$"):
                cbi_show.bugs.read_bugs(self.path("bugs"))
        for text in ("", "lines 1 1 1\n", "lines 1 1\nend\n", "lines 1 1 1\nline 2 0 main 2 1 0 1 1 9 if is true\nend\n", "lines 1 1 1\nlime 1 0 main 2 1 0 1 1 9 if is true\nend\n"):
            self.write("lines", text)
            with self.assertRaisesRegex(Fault, "lines: it hasn't the form of what cbi lines prints$"):
                cbi_show.bugs.read_lines(self.path("lines"))

    def test_an_executable_without_the_commands_is_told_in_a_line(self):
        """An older `cbi`: here one that answers with its usage."""
        program = self.transform(TWO_TEXT, "full", "branches")
        self.write("runs", collected(RUNS, files.read_program(program).identity))
        self.write("rank", self.call("cbi", "rank", "prog.cbi", "runs")[0])
        self.write("in/1", "ab")
        script = self.write("old/cbi", f'#!/bin/sh\n[ "$1" = lines ] && echo usage >&2 && exit 2\nexec "{looking.CBI}" "$@"\n')
        os.chmod(script, 0o755)
        said = "old/cbi has no commands lines and bugs, which list what is shown: it is older than this script (./build FOLDER makes one that has them)\n"
        for words in (["cbi-hunt", "prog.c", "--inputs", "in", "--cbi", script], ["cbi-show", "rank", "--program", "prog.cbi", "--reports", "runs", "--cbi", script]):
            self.assertEqual(self.call(*words, due=2), ("", f"{words[0]}: {self.room}/{said}"))
        self.assertTrue(self.call("cbi-show", "rank", "--program", "prog.cbi", "--cbi", script)[0].startswith("rank:2 in main: if was true\n"))

    def test_a_hunt_that_an_older_one_kept_is_listed_anew(self):
        self.write("prog.c", looking.UPPER)
        for number in range(40):
            self.write(f"in/{number:02}", "x!" if number % 4 == 0 else "xy")
        self.call("cbi-hunt", "prog.c", "--inputs", "in", "--jobs", "1", "--keep", "kept")
        shown = self.call("cbi-show", "--hunt", "kept")[0]
        self.assertTrue(shown.startswith("1 bug explains all 10 failing inputs (40 inputs).\n\nprog.c:7 in main: if (c == '!') was true\n"), shown)
        for name in ("lines", "bugs"):
            os.remove(self.path("kept", name))
        self.assertEqual(self.call("cbi-show", "--hunt", "kept")[0], shown)
        self.assertFalse(os.path.exists(self.path("kept", "bugs")))


class Whose(Case):
    """Whose a failing run is, and what else the reports say of a bug."""

    def rounds(self, program, runs, bugs):
        return [(one.live, one.runs, [(also.predicate, also.a, also.b, also.c, also.d) for also in one.also]) for one in table_of(program, runs).rounds(bugs)]

    def test_a_run_is_that_of_the_first_bug_whose_predicate_is_true_in_it(self):
        self.assertEqual(self.rounds(TWO, RUNS, BUGS), [(4, [1, 2, 3], []), (1, [4], [])])
        runs = list(RUNS)
        random.Random(1).shuffle(runs)
        self.assertEqual(self.rounds(TWO, runs, BUGS), [(4, [1, 2, 3], []), (1, [4], [])])
        # Line 3 is true in run 3, too: that stays the first bug's.
        runs = [run._replace(sites={0: YES, 1: YES}) if run.number == 3 else run for run in RUNS]
        self.assertEqual(self.rounds(TWO, runs, BUGS), [(4, [1, 2, 3], []), (1, [4], [])])

    def test_a_place_of_a_round_counts_the_runs_that_are_left(self):
        """Line 20's result is above 0 in runs 1 and 2 and in one other; line 30's condition in all three failing ones. When the first bug has runs 1 and 2, one is left."""
        runs = [run_of(1, True, s1=(0, 0, 1), s2=YES), run_of(2, True, s1=(0, 0, 1), s2=YES), run_of(3, True, s1=YES, s2=YES), run_of(4, False, s1=(0, 0, 1), s2=NO)]
        bugs = Bugs(3, 1, [Bug(Found(8, "f", 20, 2, 1, 3, 1, 0, "h > 0"), 1, [Also("f", 30, 3, 0, 1000000, "if is true")]),
                           Bug(Found(6, "f", 20, 1, 0, 1, 1, 1000000, "h < 0"), 3, [Also("f", 30, 1, 0, 1000000, "if is true")])], 0)
        self.assertEqual(self.rounds(FOUR, runs, bugs), [(3, [1, 2], [(12, 3, 0, 3, 1)]), (1, [3], [(12, 1, 0, 1, 1)])])

    def test_of_several_predicates_that_read_alike_it_is_the_one_with_these_counts(self):
        """The first && is true in the two failing runs and in one other; the second in those two alone; the third likewise, and was looked at in one run more."""
        runs = [run_of(1, True, s0=YES, s1=YES, s2=YES, s3=YES), run_of(2, True, s0=YES, s1=YES, s2=YES, s3=YES), run_of(3, False, s0=YES, s1=NO, s2=NO), run_of(4, False, s0=NO, s2=NO)]
        lead = Found(6, "main", 5, 2, 0, 2, 0, 1000000, "if is true")
        for b, due in ((1, (0, 2, 1, 2, 2)), (0, (4, 2, 0, 2, 2))):
            self.assertEqual(self.rounds(SIGNS, runs, Bugs(2, 2, [Bug(lead, 1, [Also("main", 5, 2, b, 0, "&& is true")])], 0)), [(2, [1, 2], [due])])

    def test_bugs_of_other_reports_are_a_fault(self):
        lead = BUGS.bugs[0].leader
        for bug in (Bug(lead._replace(a=2), 1, []), Bug(lead, 2, []), Bug(lead._replace(predicate=99), 1, []), Bug(lead, 1, [Also("main", 3, 1, 1, 9, "if is true")]), Bug(lead, 1, [Also("main", 4, 1, 0, 9, "if is true")])):
            with self.assertRaisesRegex(Fault, "^the bugs aren't of these reports"):
                table_of(TWO, RUNS).rounds(Bugs(4, 6, [bug], 0))

    def test_strength_is_that_of_exact_fractions(self):
        """Beside Python's own fractions, on small counts and on great ones."""
        chance = random.Random(5)
        for most in (12, 100000):
            failing, successful = most // 3, most - most // 3
            for _ in range(300):
                a, b = chance.randrange(1, failing + 1), chance.randrange(successful + 1)
                e, divisor = max(0, a * successful - b * failing), failing * successful * (a + b) * (most - a - b)
                self.assertEqual(reports.strength_of(a, b, failing, successful), int(fractions.Fraction(e * e, divisor) * 1000000) if divisor else 0)

    def test_which_runs_a_predicate_is_true_in(self):
        table = table_of(FOUR, [run_of(9, True, s0=(0, 2, 1)), run_of(3, True, s0=(1, 0, 0)), run_of(4, False, s0=(0, 0, 1)), Run(5, "cut turns", "none", {0: YES})])
        self.assertEqual(table.runs_with([0, 1, 2, 4, 5]), {0: [3], 1: [3, 9], 2: [9], 4: [9], 5: [3, 9]})
        self.assertEqual((table.counts_of(2), table.counts_of(4)), ((1, 1, 2, 1), (1, 0, 2, 1)))


class Evidence(Case):
    """How sure a fact is."""

    def test_what_chance_alone_would_do(self):
        """Of 20 runs 10 failed, and the predicate was true in 10: at least 9 of these fail in 10 * 10 + 1 of the 184756 draws."""
        by_chance = evidence.by_chance
        self.assertAlmostEqual(by_chance(9, 1, 10, 10), 101 / 184756, places=12)
        self.assertAlmostEqual(by_chance(0, 3, 4, 5), 1.0, places=12)
        self.assertAlmostEqual(by_chance(3, 0, 3, 9), 1 / 220, places=12)
        self.assertAlmostEqual(by_chance(2, 4, 2, 8), 1 / 3, places=12)  # 70 of the 210 draws of six have both failing ones
        self.assertGreater(by_chance(40000, 10000, 50000, 50000), -1e-12)

    def collection(self, runs):
        return self.write("runs", collected(runs))

    # Three inputs, of which the first fails, in three runs each: 1, 4 and 7 are of the first, 2, 5 and 8 of the second.
    SEVERAL = [run_of(1, True, s0=YES), run_of(4, True, s0=YES), run_of(7, True, s1=YES), run_of(2, False, s0=NO), run_of(5, False, s0=YES, s1=NO), run_of(8, False), run_of(3, False, s0=NO),
               run_of(6, False, s1=NO), run_of(9, False, s0=NO)]

    def test_inputs_count_and_not_runs(self):
        """The condition of line 2 is true in two runs of the one failing input, and in one of one of two others; that of line 3 was looked at on all three inputs."""
        table = table_of(TWO, self.SEVERAL)
        looks = evidence.Looks(self.collection(self.SEVERAL), {predicate: evidence.event_of(table, predicate) for predicate in (0, 2)}, 3)
        self.assertEqual(looks.evidence(0), (1, 1, 1, 2))
        self.assertEqual(looks.evidence(2), (1, 0, 1, 2))
        self.assertEqual(looks.evidence(0, looks.without({1, 4})), (0, 1, 1, 2))
        self.assertEqual(looks.evidence(2, looks.without({1, 4, 7})), (0, 0, 0, 2))
        self.assertEqual(looks.evidence(2, [run for run in looks.runs if run.run != 6], True), (1, 0, 1, 1))

    def test_rows_are_of_the_runs_that_those_before_them_left(self):
        """Behind the row of line 2 run 7 is left of the failing input; set aside are runs 1, 4 and 5, or the failing ones of these, or they count as successful."""
        table = table_of(TWO, self.SEVERAL)
        looks = evidence.Looks(self.collection(self.SEVERAL), {predicate: evidence.event_of(table, predicate) for predicate in (0, 3, 2)}, 3)
        self.assertEqual(looks.behind([0, 2], "all"), [(1, 1, 1, 2), (1, 0, 1, 1)])
        self.assertEqual(looks.behind([0, 2], "failing"), [(1, 1, 1, 2), (1, 0, 1, 2)])
        self.assertEqual(looks.behind([0, 0], "relabel"), [(1, 1, 1, 2), (0, 2, 0, 3)])

    def test_a_pair_counts_inputs(self):
        """Of the failing input run 7 knows that line 3 isn't false; of the second one run 5 has both facts; of the third two runs know that line 2 isn't true. No run of the failing one knows both of `true` and `true`."""
        table = table_of(TWO, self.SEVERAL)
        looks = evidence.Looks(self.collection(self.SEVERAL), {predicate: evidence.event_of(table, predicate) for predicate in (0, 2, 3)}, 3)
        self.assertEqual(looks.both(0, 3), (0, 1, 1, 2))
        self.assertEqual(looks.both(0, 2), (0, 0, 0, 2))

    def test_more_runs_of_an_input_make_no_pair_surer(self):
        """Ten runs of one failing input and ten of another: by runs one draw of 184756 has it so, by inputs one of two, and two pairs were counted, so one by chance."""
        runs = [run_of(number, number % 2, s0=YES if number % 2 else NO, s1=YES) for number in range(1, 21)]
        where = cbi_show.where.one_file("a.c", ["", "if (a);", "if (b);"])
        row = files.Row(1, 1, "branches", "main", 2, "if is false", 1, 9, 10, 10, 0, 0, 0, 1)
        pair = files.Pair(2, files.Side(0, "main", 2, "if is true"), files.Side(2, "main", 3, "if is true"), 10, 0, 10, 10, 1000000)
        wording = cbi_show.wording.Wording(None, TWO, where)
        for inputs, due in ((2, (1, 0, 1, 1)), (None, None), (20, None)):
            seen = cbi_show.seen.seen_in(self.collection(runs), TWO, lambda _: NONE, cbi_show.seen.Asked([], where, inputs, pair=(0, 2)))
            self.assertEqual(seen.both, due)
            shown = rows.pair_of(pair, files.Ranking([row], None), wording, seen.both)
            self.assertEqual(shown is None, inputs == 2)

    def seen(self, runs, inputs, listed=NONE):
        where = cbi_show.where.one_file("a.c", ["", "if (a);", "if (b);"])
        return cbi_show.seen.seen_in(self.collection(runs), TWO, lambda _: listed, cbi_show.seen.Asked([], where, inputs))

    def one_bug(self, a, b):
        """That the condition of line 2 is true in all failing runs, of which the first is the first run, and in no other."""
        lead = Found(0, "main", 2, a, 0, a, b, 1000000, "if is true")
        return Listed(Lines(a, b, 1, [lead]), Bugs(a, b, [Bug(lead, 1, [])], 0))

    def test_more_runs_of_an_input_make_nothing_surer(self):
        """One of ten inputs fails, and one fact of four is true on it alone: one draw of ten, so 0.4 facts would by chance alone, with one run each as with ten."""
        once = [run_of(number, number == 1, s0=YES if number == 1 else NO, s1=NO) for number in range(1, 11)]
        often = [run._replace(number=run.number + 10 * more) for more in range(10) for run in once]
        for runs in (once, often):
            seen = self.seen(runs, 10, self.one_bug(len(runs) // 10, len(runs) * 9 // 10))
            self.assertEqual((seen.observed, seen.inputs), (4, (1, 9)))
            self.assertAlmostEqual(seen.bug_chances[0], 4 / 10, places=9)
            answer = cbi_show.answer.answer_of(seen, cbi_show.wording.Wording(None, TWO, cbi_show.where.one_file("a.c", None)))
            self.assertEqual((answer.strong(), len(answer.leading()), answer.several()), ([], 1, runs is often))
        # Where nothing says which runs are of one input each is its own: 10 of 100 fail, 1 draw of 17310309456440.
        self.assertLess(self.seen(often, None, self.one_bug(10, 90)).bug_chances[0], 1e-9)

    def test_lines_that_failing_runs_come_to_are_in_their_order(self):
        """Of ten failing runs and ten others nine and one come to line 2, which is beyond chance for two lines: 2 * 101 / 184756. To line 3 come eight and five, which is within it."""
        runs = [run_of(number, number <= 10, **({"s0": YES} if number in (11, *range(1, 10)) else {}), **({"s1": YES} if number <= 8 or 11 <= number <= 15 else {})) for number in range(1, 21)]
        seen = self.seen(runs, None)
        self.assertEqual([(place.spot.line, place.failing, place.successful, place.sure()) for place in seen.places], [(2, 9, 1, True), (3, 8, 5, False)])
        self.assertAlmostEqual(seen.places[0].expected, 2 * 101 / 184756, places=9)
        # Of 77520 draws of 13 have 8, 9 or 10 of the failing ten: 45 * 252 + 10 * 210 + 120.
        self.assertAlmostEqual(seen.places[1].expected, 2 * (45 * 252 + 10 * 210 + 120) / 77520, places=9)

    def test_shares_in_words(self):
        for part, whole, due in ((0, 5, "none of the 5 others"), (5, 5, "all 5 others"), (2, 2, "both others"), (1, 1, "the one other"), (3, 9, "3 of the 9 others")):
            self.assertEqual(told.part_of(part, whole, "other"), due)
        for number, due in ((876.9, "877"), (9.96, "10.0"), (1.04, "1.0"), (0.13, "0.13"), (0.0512, "0.051")):
            self.assertEqual(told.expected_of(number), due)


class Words(Case):
    """What a person's text says of a condition's two sides."""

    TEXT = """int f(int a, int b)
{
    if (a > 0) {
        b = 1;
        a = 2;
    } else if (b)
        a = 3;
    else
        a = 4;
    while (a
           && b)
        a--;
    if (a) return 1;
    for (a = 0; a < 3; a++) {
    }
    return 0;
}
int main(void) { return f(1, 2); }
"""

    def test_lines_that_run_only_where_a_condition_is_true(self):
        """By hand: lines 4 and 5; where it is false line 6 on, of which the else-if itself is the first. What stands behind a `return` runs only where its condition is false."""
        self.transform(self.TEXT, "full", "branches")
        program = files.read_program(self.path("prog.cbi"))
        lines = self.TEXT.split("\n")
        wording = cbi_show.wording.Wording(lines, program, cbi_show.where.one_file("prog.c", lines))
        found = {}
        for site in program.sites:
            for text, _ in site.predicates():
                only = wording.only_at(site, text)
                if only:
                    found[site.line, site.names[0], text.split(" ")[-1]] = list(only)
        self.assertEqual(found, {(3, "if", "true"): [4, 5], (3, "if", "false"): [6, 7, 8, 9], (6, "if", "true"): [7], (6, "if", "false"): [9], (10, "while", "true"): [12], (13, "if", "false"): [14, 15, 16]})


# The third function of a table adds one too many.
TABLE = """#include <stdio.h>
static int add(int a, int b) { return a + b; }
static int sub(int a, int b) { return a - b; }
static int mul(int a, int b) { return a * b + 1; }
static int (*const table[])(int, int) = { add, sub, mul };
int main(void)
{
    int k, a, b;
    while (scanf("%d %d %d", &k, &a, &b) == 3)
        printf("%d\\n", table[k](a, b));
    return 0;
}
"""


class PortedFacts(Hunting):
    """What a port added is never the title."""

    def test_what_only_the_port_has_is_left_out_and_counted(self):
        """By hand: the loader of bytes is true in the five failing runs alone, and `if` of line 3 of the person's text in four of these; the loader isn't told, and takes no run from it."""
        path = self.transform("int cbi_load(int a){if(a);return a;}\nint main(void){int b=cbi_load(getchar());\nif(b);\nreturn 0;}\n", "full", "branches")
        program = files.read_program(path)
        self.assertEqual([(site.function, site.line) for site in program.sites], [("cbi_load", 1), ("main", 3)])
        lines = [("", 0, True), ("a.c", 2, False), ("a.c", 3, False), ("a.c", 4, False)]
        where = cbi_show.where.Where("a.c", {"a.c": ["", "int main(void) {", "if (b);", "}"]}, lines, frozenset(["cbi_load"]))
        wording = cbi_show.wording.Wording(None, program, where)
        self.assertEqual(wording.left_out(), frozenset([0]))
        self.assertIsNone(wording.told(program.sites[0], "if is true"))
        runs = [run_of(number, number <= 5, s0=YES if number <= 5 else NO, s1=YES if number <= 4 else NO) for number in range(1, 21)]
        self.write("runs", collected(runs, program.identity))
        asked = cbi_show.seen.Asked([], where, None, left_out=wording.left_out())
        seen = cbi_show.seen.seen_in(self.path("runs"), program, lambda left_out: cbi_show.bugs.list_runs(looking.CBI, path, self.path("runs"), left_out, self.room), asked)
        answer = cbi_show.answer.answer_of(seen, wording)
        self.assertEqual([(bug.lead.found.predicate, bug.lead.told.spot.line, bug.runs) for bug in answer.bugs], [(2, 3, [1, 2, 3, 4]), (3, 3, [5])])
        self.assertEqual([line.found.predicate for line in answer.lines], [2])
        self.assertEqual((answer.left_out, answer.observed), (1, 2))

    def test_a_call_by_a_pointer_is_told_by_where_it_went(self):
        if call(sys.executable, "-c", "import pycparser")[0] or not any(map(shutil.which, ("gcc", "clang", "cpp"))):
            self.skipTest("there is no pycparser here, or no preprocessor")
        self.write("table.c", TABLE)
        for number in range(40):
            which, a, b = number % 5, number % 7, number % 3
            self.write(f"words/{number:02}", f"{which % 2} {a} {b}\n" + (f"2 {a} {b}\n" if which == 4 else ""))
            self.write(f"right/{number:02}", f"{(a - b) if which % 2 else a + b}\n" + (f"{a * b}\n" if which == 4 else ""))
        out, _ = self.call("cbi-hunt", "table.c", "--inputs", "words", "--expect", "right", "--jobs", "1", "--no-check", "--keep", "kept")
        self.assertTrue(out.startswith("1 bug explains all 8 failing inputs (40 inputs).\n\ntable.c:10 in main: the call at line 10 went to mul\nTrue in all 8 failing runs that came there, and in none of the "), out)
        self.assertIn(">    10 |         printf(\"%d\\n\", table[k](a, b));\n", out)
        self.assertRegex(out, r"\n[0-9]+ places in code that the port added are left out\.\n")
        self.assertNotIn("cbi_", "\n".join(line for line in out.split("\n") if not line.startswith("the run again")))
        self.assertTrue(self.call("cbi-show", "--hunt", "kept", "--format", "quickfix")[0].startswith("table.c:10: the call at line 10 went to mul: "))
        self.assertTrue(os.path.exists(self.path("kept", "source.c.lines")))
