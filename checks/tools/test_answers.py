"""Looks at the answer that a hunt gives, as test_tools does at the rest: what broke, where, how often, and one failing run."""
import json
import re
import subprocess
import sys

import looking
from test_pages import sound
from looking import Case, Hunting, environment, on_terminal

sys.path.insert(0, looking.TOOLS)
import cbi_show.authors  # noqa: E402
import cbi_show.command  # noqa: E402
import cbi_show.files  # noqa: E402
import cbi_show.source  # noqa: E402
import cbi_show.told  # noqa: E402
import cbi_show.where  # noqa: E402
from cbi_hunt import looks  # noqa: E402

FACTS = """\
#include <stdlib.h>
struct item { int key; struct item *next; };
struct item *items;
struct item *find(int key)
{
    struct item *e = items;
    while (e && e->key != key) e = e->next; /* a comment; with a sign ? */
    return e;
}
int one(int n) { return n ? n : 1; }
int main(void)
{
    int a = 3, b;
    b = a + one(a == 3 ? 2
                : 4);
    do {
        --a;
        b++;
    } while (a > 0 || b < 3 && a);
    for (a = 0; a < (b % 3 ? 2 : 3); a += 1)
        if (find(a) == NULL)
            getchar();
    return a > 1 ? b : a;
}
"""
# What stands at the sites of each line, by hand: of a branch its truth, of a call what it returned, and of a new value the text that gives it.
FACT_TEXTS = {
    7: ["while (e && e->key != key) is true", "e (left of &&) is true"],
    10: ["n (before ?) is true"],
    13: ["after a = 3"],
    14: ["after b = a + one(a == 3 ? 2 : 4)", "one(a == 3 ? 2 : 4) returned 0", "a == 3 (before ?) is true"],
    16: ["do .. while (a > 0 || b < 3 && a) is true"],
    17: ["after --a"],
    18: ["after b++"],
    19: ["a > 0 (left of ||) is true", "b < 3 (left of &&) is true"],
    20: ["for (a < (b % 3 ? 2 : 3)) is true", "after a = 0", "b % 3 (before ?) is true", "after a += 1"],
    21: ["if (find(a) == NULL) is true", "find(a) returned NULL"],
    22: ["getchar() returned 0"],
    23: ["a > 1 (before ?) is true"],
}


class Facts(Case):
    def test_predicates_are_told_as_the_text_has_them(self):
        self.transform(FACTS)
        program, source = cbi_show.files.read_program(self.path("prog.cbi")), cbi_show.source.Source(FACTS.split("\n"))
        found = {}
        for site in program.sites:
            wanted = {"branches": 0, "returns": 4, "pairs": 4}[site.scheme]
            fact = source.fact(site, site.predicates()[wanted][0])
            said = fact.says if site.scheme == "pairs" else fact.text()
            if said not in found.setdefault(site.line, []):
                found[site.line].append(said)
        self.assertEqual({line: sorted(said) for line, said in found.items()}, {line: sorted(said) for line, said in FACT_TEXTS.items()})

    def test_each_relation_of_a_result_has_words(self):
        for relation, number, pointer in (("<", "less than 0", "less than NULL"), ("<=", "0 or less", "NULL"), (">", "more than 0", "a pointer, not NULL"),
                                          (">=", "0 or more", "NULL or a pointer"), ("==", "0", "NULL"), ("!=", "other than 0", "a pointer, not NULL")):
            self.assertEqual(cbi_show.source.returned(relation, False, "f"), "returned " + number)
            self.assertEqual(cbi_show.source.returned(relation, True, "f"), "returned " + pointer)
        self.assertEqual((cbi_show.source.returned("<", False, "getchar"), cbi_show.source.returned(">=", False, "getchar")), ("returned EOF", "returned a byte, not EOF"))

    def test_another_text_gives_no_words(self):
        self.transform(FACTS)
        program, source = cbi_show.files.read_program(self.path("prog.cbi")), cbi_show.source.Source(("\n" + FACTS).split("\n"))
        site = next(site for site in program.sites if site.names == ("while",))
        self.assertEqual(source.fact(site, "while is true").text(), "while is true")

    def test_an_assignment_is_found_where_a_port_assigns_more(self):
        """The port of a line gives `t` a value as well: what is given to `n` is the person's, and what is given to `t` isn't."""
        for line, ported, places, due in (("n = scanf(x);", "n = (t = 1, cbi_scanf(t));", (1, 4), [1, None]), ("n += 2; n = 3;", "t = 0; n += 2; n = 3;", (1, 5, 9), [None, 1, 5])):
            ours, where = cbi_show.source.Source([line]), cbi_show.where.Where("a.c", {"a.c": [line]}, [("a.c", 1, False)])
            authors = cbi_show.authors.Authors(cbi_show.source.Source([ported]), where, {"a.c": ours})
            site = cbi_show.files.Site(0, "pairs", "f", 1, 0, ("n", "n"), False)
            self.assertEqual([authors.same_word(place, ours, 1, site) for place in places], due)

    def test_long_conditions_are_clipped(self):
        self.assertEqual(cbi_show.source.clipped("x" * 61), "x" * 58 + "..")
        self.assertEqual(cbi_show.source.clipped("x" * 60), "x" * 60)

    def test_bytes_are_made_visible(self):
        self.assertEqual(cbi_show.files.visible(b"a\tb\n\x1b[1m\\\xff\0"), "a\\tb\\n\\033[1m\\\\\\377\\000")
        self.assertEqual(cbi_show.files.visible(b"abcdef", 3), "abc..")
        self.assertEqual(cbi_show.files.harmless("a\tb\x1b[2J\x07"), "a       b\\033[2J\\007")


class Numbers(Case):
    """Numbers by hand."""

    def test_the_first_line_that_differs(self):
        for wrote, due, found in ((b"a\nb\n", b"a\nc\n", (2, b"b\n", b"c\n")), (b"a\n", b"a\nb\n", (2, b"", b"b\n")), (b"a\nb", b"a\nb\n", (2, b"b", b"b\n")),
                                  (b"a\nb\n", b"a\n", (2, b"b\n", b"")), (b"", b"x", (1, b"", b"x")), (b"a", b"a", (0, b"", b""))):
            self.assertEqual(looks.first_difference(wrote, due), found)


# Runs of two conditions that fail where both hold: those of docs/METHOD.md, 'Two facts at once'.
TWO = "int main(void){int a=getchar();int b=getchar();\nif(a);\nif(b);\nreturn 0;}\n"


class Sections(Case):
    def show(self, runs, *words, due=0):
        identity = cbi_show.files.read_program(self.path("prog.cbi")).identity
        self.write("runs", f"cbi-collection 2\nprogram {identity}\n" + "".join(runs) + "end\n")
        for command in ("rank", "cards", "pairs"):
            self.write(command, self.call("cbi", command, "prog.cbi", "runs")[0])
        return self.call("cbi-show", "rank", "--source", "prog.c", "--program", "prog.cbi", "--reports", "runs", "--cards", "cards", "--pairs", "pairs", *words, due=due)[0]

    def run_of(self, number, failing, *truths, outcome=None):
        sites = "".join(f"site {site} {int(true)} {int(not true)} 0\n" for site, true in enumerate(truths) if true is not None)
        return f"run {number} {outcome or ('trapped 14' if failing else 'ended 0')} label {'fail' if failing else 'pass'} work 0 0 0\n{sites}"

    def test_the_best_pair_is_shown_where_it_says_more(self):
        self.transform(TWO, "full", "branches")
        runs = [self.run_of(number, number <= 9, number <= 18, number <= 9 or number > 18) for number in range(1, 28)]
        self.assertIn("\nThe ranking of cbi rank has 1 row (--all shows it, with what falls with each and the best pair).\n", self.show(runs))
        text = self.show(runs, "--all")
        self.assertIn("\nTwo facts that say more together:\n     line 2, main: if (a) is true\n     line 3, main: if (b) is true\n"
                      "     both true in 9 failing runs and no successful runs; importance 0.800, and so at least 0.1 above that of the first row\n", text)
        page = sound(self, self.show(runs, "--format", "html"))
        self.assertIn([3, "Two facts that say more together"], page.headings)
        self.assertIn("both true in 9 failing runs and no successful runs; importance 0.800", page.folded)
        runs = [self.run_of(number, number <= 9, number <= 9, number > 9) for number in range(1, 28)]
        self.assertNotIn("Two facts", self.show(runs, "--all"))
        self.assertNotIn("Two facts", self.show(runs, "--format", "html"))

    def test_a_pair_that_leaves_no_run_of_the_first_row_out_is_not_shown(self):
        """`b` is true wherever `a` is; since it was looked at in more runs, the pair's importance is greater: Context is 9/39 where that of `a` is 9/18."""
        self.transform(TWO, "full", "branches")
        runs = [self.run_of(number, number <= 9, number <= 9 if number <= 18 else None, number <= 18) for number in range(1, 40)]
        text = self.show(runs, "--all")
        self.assertIn("  1. line 2, main: if (a) is true\n", text)
        best = cbi_show.files.read_pairs(self.path("pairs"))
        self.assertEqual((best.failing, best.successful, best.known_failing, best.known_successful), (9, 0, 9, 30))
        self.assertGreater(best.importance, cbi_show.files.read_ranking(self.path("rank")).rows[0].importance + 100000)
        self.assertNotIn("Two facts", text)

    def test_weak_rows_stand_apart_by_a_rule_that_is_told(self):
        """The second condition is true in the one failing run that looked there and in neither of two others: one draw in three has it so, of each of four predicates."""
        self.transform(TWO, "full", "branches")
        first = [self.run_of(number, True, True, None) for number in range(1, 11)] + [self.run_of(number, False, False, None) for number in range(11, 41)]
        second = [self.run_of(number, number == 41, None, number == 41) for number in range(41, 44)]
        self.assertIn("\nThe ranking of cbi rank has 2 rows (--all shows them, with what falls with each).\n", self.show(first + second))
        text = self.show(first + second, "--all")
        self.assertEqual(re.findall(r"^ +\d+\. .*$", text, re.MULTILINE), ["  1. line 2, main: if (a) is true", "  2. line 3, main: if (b) is true"])
        told = "1 weak row: of 4 facts tested, one or more would look this strong by chance"
        self.assertLess(text.index("  1. line 2"), text.index(told))
        self.assertLess(text.index(told), text.index("  2. line 3"))
        page = sound(self, self.show(first + second, "--format", "html"))
        self.assertIn([3, told], page.headings)
        counts = "Looked at in 1 failing and 2 successful".lower()
        self.assertEqual((counts in page.text, counts in page.folded), (False, True))

    def test_a_bar_promises_nothing_where_its_row_is_weak(self):
        """For sure it adds something by the paper's interval, whose width is 0 where all of one failing and none of two other runs have it."""
        self.transform(TWO, "full", "branches")
        text = self.show([self.run_of(number, number == 1, False, number == 1) for number in range(1, 4)], "--all")
        bar = re.search(r"^     \[(.*)\] importance", text, re.MULTILINE)[1]
        self.assertEqual(set(bar.strip()), {"#", "-"})

    def test_a_fact_that_chance_alone_would_make_is_told_as_such(self):
        """The one failing run of three has `b` true; one draw in three has it so, of each of four predicates."""
        self.transform(TWO, "full", "branches")
        runs = [self.run_of(number, number == 1, False, number == 1) for number in range(1, 4)]
        text = self.show(runs).replace("\n", " ")
        self.assertTrue(text.startswith("No fact is beyond chance. What may help: - More inputs that differ, also in little.  Perhaps by chance, prog.c:3 in main: if (b) was true True in the one failing run "
                                        "that looked there, and in none of the 2 others that did. Weak evidence: of 4 facts tested, about 1.3 would look this strong by chance."), text)
        text = self.show(runs, "--format", "html")
        self.assertIn("<h1><code>prog.c</code>: no fact is beyond chance</h1>", text)
        self.assertIn("<h3>Perhaps by chance, <code>if (b)</code> was true at prog.c:3 in <code>main</code></h3>", text)
        self.assertIn("<title>Perhaps by chance, prog.c:3 in main: if (b) was true</title>", text)
        self.assertEqual([line.split(":")[2:4] for line in self.show(runs, "--format", "quickfix").split("\n")[:1]], [[" Perhaps by chance, if (b) was true", " True in the one failing run that looked there, and in none of the 2 others that did."]])
        self.assertEqual({(result["level"], result["properties"]["expectedByChance"]) for result in json.loads(self.show(runs, "--format", "sarif"))["runs"][0]["results"]}, {("note", 1.333333)})

    def test_a_title_is_doubted_from_one_in_twenty_on(self):
        """`a` is true in all n failing runs and in no other of n: one draw of the binomial coefficient of 2n over n, and two facts are looked at. 2/70 is below 0.05, and 2/20 is not."""
        self.transform(TWO, "full", "branches")
        for runs, doubted in ((4, False), (3, True)):
            text = self.show([self.run_of(number, number <= runs, number <= runs, None) for number in range(1, 2 * runs + 1)])
            self.assertEqual((text.startswith("No fact is beyond chance."), "Perhaps by chance" in text), (doubted, doubted))

    def test_a_fact_that_is_true_more_often_without_a_failure_says_so(self):
        """`a` is true in all 20 failing runs, and in 21 or in 20 of 40 others: of 15,576 draws of 41 one has all failing ones."""
        self.transform(TWO, "full", "branches")
        for others, said in ((21, True), (20, False)):
            text = self.show([self.run_of(number, number <= 20, number <= 20 + others, None) for number in range(1, 61)]).replace("\n", " ")
            self.assertIn(f"True in all 20 failing runs that looked there, and in {others} of the 40 others that did.", text)
            self.assertEqual("It was true more often without a failure, so it is a part of the cause at most." in text, said)
            self.assertNotIn("Perhaps by chance", text)

    def test_one_other_run_is_told_as_one(self):
        self.transform(TWO, "full", "branches")
        text = self.show([self.run_of(number, number <= 9, number <= 9, None) for number in range(1, 11)])
        self.assertIn("True in all 9 failing runs that looked there, and not in the one other that did. Weak evidence:", text.replace("\n", " "))
        text = self.show([self.run_of(number, number <= 9, number <= 9, None) for number in range(1, 10)] + [self.run_of(number, False, None, True) for number in range(10, 19)])
        self.assertIn("True in all 9 failing runs that looked there, and no other looked there.", text.replace("\n", " "))

    def test_how_failing_runs_ended_and_where_they_go(self):
        self.transform(TWO, "full", "branches")
        runs = [self.run_of(number, True, True, True if number <= 8 else None, outcome="trapped 8" if number <= 7 else "ended 0" if number <= 9 else "cut turns") for number in range(1, 11)]
        runs += [self.run_of(number, False, False, True if number <= 12 else None) for number in range(11, 31)]
        text = self.show(runs)
        ended = "by a null pointer dereference (trap 8, 7 runs), by wrong output (2) and by a hang (cut at --turns) (1)\n"
        self.assertIn(f"\nended {ended}".replace("ended by", "ended by:"), text)
        self.assertIn(f"     its failing runs ended {ended}", self.show(runs, "--all"))
        said = "line 3, main: 80 % of the failing runs, 10 % of the others"
        self.assertIn(f"\nWhere failing runs go:\n     {said}\nLines that failing runs reach more often than others, beyond chance", text)
        page = sound(self, self.show(runs, "--format", "html"))
        self.assertIn([2, "Where failing runs go"], page.headings)
        self.assertIn(said, page.text)

    def test_where_failing_runs_go_comes_first_where_no_fact_is_beyond_chance(self):
        """Both failing runs come to line 3, where `b` is as often true as in the others, and so do four of eight others: 1 draw in 3, of two lines that were seen."""
        self.transform(TWO, "full", "branches")
        runs = [self.run_of(number, number <= 2, number % 2 == 0, number % 2 == 0 if number <= 6 else None) for number in range(1, 11)]
        text = self.show(runs, due=1)
        self.assertTrue(text.endswith("\n\nThe ranking of cbi rank has no row.\n"), text)
        self.assertLess(text.index("Where failing runs go:\n     line 3, main: 100 % of the failing runs, 50 % of the others\nLines that failing runs reach more often than others; some would by chance."),
                        text.index("Perhaps by chance, prog.c:"))
        self.assertEqual(text.count("Where failing runs go"), 1)
        page = sound(self, self.show(runs, "--format", "html", due=1))
        self.assertEqual(page.headings[0], [1, "prog.c: no fact is beyond chance; failing runs go to line 3 in main"])
        self.assertEqual([said for level, said in page.headings if level == 2][:3], ["Where failing runs go", "The best fact, perhaps by chance", "Left over"])
        results = json.loads(self.show(runs, "--format", "sarif", due=1))["runs"][0]["results"]
        self.assertEqual((results[0]["ruleId"], {result["level"] for result in results}), ("reach", {"note"}))

    def test_several_bugs_at_once(self):
        """Ten runs fail where `a` is true, ten where `b` is, and no other of forty has one of them."""
        self.transform(TWO, "full", "branches")
        runs = [self.run_of(number, number <= 20, number <= 10, 10 < number <= 20) for number in range(1, 61)]
        text = self.show(runs)
        self.assertTrue(text.startswith("2 bugs explain all 20 failing runs (60 runs).\n\nA. prog.c:2 in main: if (a) was true\n"), text)
        self.assertIn("\nB. prog.c:3 in main: if (b) was true\nOf the 10 failing runs that no bug above explains, true in all 10 that looked there, and in none of the 40\nothers that did.\n", text)
        page = sound(self, self.show(runs, "--format", "html"))
        self.assertEqual(page.headings[0], [1, "A. if (a) was true at prog.c:2 in main"])
        self.assertIn([3, "B. if (b) was true at prog.c:3 in main"], page.headings)
        self.assertEqual([result["level"] for result in json.loads(self.show(runs, "--format", "sarif"))["runs"][0]["results"]], ["error", "error"])
        self.assertEqual([line.split(": ")[:2] for line in self.show(runs, "--format", "quickfix").split("\n")[:2]], [["prog.c:2", "if (a) was true"], ["prog.c:3", "if (b) was true"]])


class Answer(Hunting):
    def again(self, out):
        """What the command comes to that an answer has, called as a person would."""
        command = re.search(r"^the run again: (.*)$", out, re.MULTILINE)[1]
        done = subprocess.run(["bash", "-c", command], stdout=subprocess.PIPE, stderr=subprocess.PIPE, cwd=self.room, env=environment(), check=False)
        self.assertEqual((done.returncode, done.stderr), (0, b""), command)
        return done.stdout.decode()

    def test_the_answer_comes_first(self):
        """At rate 1 each visit is looked at: nine of 36 inputs have an `a`, and no other fails."""
        self.more_inputs()
        out = self.hunt("--inputs", "in puts", "--expect", "due", "--rate", "1", "--keep", "kept")
        self.assertEqual(out, """\
1 bug explains all 9 failing inputs (36 inputs).

upper.c:9 in main: if (c > 'a' && c <= 'z') was false
True in all 9 failing runs that came there, and in none of the 27 others that did.

      7 |         if (c == '!')
      8 |             abort();
>     9 |         if (c > 'a' && c <= 'z')
     10 |             c -= 32;
     11 |         putchar(c);

ended by: wrong output (9 runs)
failing inputs: kept/failing/02 abc (3 bytes), kept/failing/04 zza (3 bytes), kept/failing/08 caa (3 bytes) and 6 more
smallest failing input, 02 abc (3 bytes): abc
line 1 of its output: aBC
line 1 that was expected: ABC
first wrong byte: byte 1 (line 1, column 1): 'a', and 'A' is expected
that byte was written at: upper.c:11 in main: putchar(c);
just before: upper.c:9 in main: if (c > 'a' && c <= 'z')
the run again: cbi-explain -- cbi run --expect 'due/02 abc' --input 'kept/failing/02 abc' kept/plain

36 runs on 36 inputs: 9 failed, 27 succeeded
failing inputs: 02 abc, 04 zza, 08 caa, 14 abcx, 16 zzax and 4 more, in kept/failing

Suspicious lines:
  1.000  line 9, main: if (c > 'a' && c <= 'z') was false (9 of 9 failing, 0 of 27 others)
Each line by its best fact, one for each three around. Strength is the square of the correlation between the
fact and failing: 1 where it was true in all failing runs and in no other.

The ranking of cbi rank has 1 row (--all shows it, with what falls with each).
page: kept/page.html
""")
        again = self.again(out)
        self.assertTrue(again.startswith("aBCRun 1 of the program "), again)
        self.assertIn("It counts as failing: its output wasn't the expected one.", again)
        self.assertEqual(self.call("cbi-show", "--hunt", "kept")[0], out.split("page: ")[0])
        every = self.call("cbi-show", "--hunt", "kept", "--all")[0]
        self.assertIn("\n  1. line 6, main: c == 97 'a' after c = getchar()\n     fails 25 % of the time when reached, 100 % when this is true\n", every)
        self.assertIn("     its failing runs ended by wrong output (9 runs)\n     on the inputs 02 abc, 04 zza, 08 caa and 6 more\n", every)

    def test_runs_are_no_more_than_inputs_where_each_visit_is_looked_at(self):
        self.more_inputs()
        out = self.hunt("--inputs", "in puts", "--expect", "due", "--runs", "100", "--keep", "kept")
        told = "36 runs in place of 100: where every visit is looked at (--rate 1) each input's run is the same each time, so that more runs are copies"
        self.assertIn(f"\n36 runs on 36 inputs: 9 failed, 27 succeeded\n", out)
        self.assertIn(f"\n{told}\n", out)
        self.assertEqual(self.read("kept/runs").count(b"\nrun "), 36)
        out = self.hunt("--inputs", "in puts", "--expect", "due", "--runs", "100", "--parts", "2")
        self.assertIn("\n72 runs on 36 inputs: 18 failed, 54 succeeded\n", out)
        self.assertIn("72 runs in place of 100: where every visit is looked at (--rate 1) each input's run for each of the 2 parts is the same each time", out)
        self.assertNotIn("in place of", self.hunt("--inputs", "in puts", "--expect", "due", "--runs", "100", "--rate", "2"))

    def test_more_runs_buy_no_certainty(self):
        """Three of twelve inputs have an `a`. Of as many facts as are looked at chance alone makes some as strong, with twelve runs as with a thousand."""
        for runs in ("12", "1000"):
            out = self.hunt("--inputs", "in puts", "--expect", "due", "--runs", runs, "--rate", "2")
            self.assertTrue(out.startswith("No fact is beyond chance.\nWhat may help:\n- Only 3 inputs fail: "), out)
            self.assertIn("\n- More inputs that differ, also in little.\n- A smaller rate (--rate 1 looks at every visit).\n- More runs (--runs): at --rate 2 ", out)
            self.assertIn("Perhaps by chance, upper.c:", out)
        self.assertRegex(" ".join(out.split()), r"about 0\.\d+ would look this strong by chance \(counted by inputs\)\.")

    def test_each_bug_has_its_own_inputs(self):
        """Nine inputs have an `a`, and nine others a `!`, of which the smallest has one byte."""
        self.more_inputs()
        for number in range(40, 49):
            self.write(f"in puts/{number} !", "b" * (number - 40) + "!")
        out = self.hunt("--inputs", "in puts", "--oracle", "python3 judge.py")
        self.assertTrue(out.startswith("2 bugs explain all 18 failing inputs (45 inputs).\n\nA. upper.c:"), out)
        first, second = out.split("\nB. upper.c:")
        by_inputs = {re.search(r"^failing inputs: (.*)$", part, re.MULTILINE)[1]: part for part in (first, second)}
        self.assertEqual(set(by_inputs), {"in puts/02 abc (3 bytes), in puts/04 zza (3 bytes), in puts/08 caa (3 bytes) and 6 more",
                                          "in puts/40 ! (1 byte), in puts/41 ! (2 bytes), in puts/42 ! (3 bytes) and 6 more"})
        for files, due in (("in puts/02", ["ended by: wrong output (9 runs)", "smallest failing input, 02 abc (3 bytes): abc\nits output ended with: aBC\n"]),
                           ("in puts/40", ["ended by: a call of abort (trap 14, 9 runs)", "smallest failing input, 40 ! (1 byte): !\nits output: nothing\n"])):
            part = next(part for names, part in by_inputs.items() if names.startswith(files))
            for said in due:
                self.assertIn(said, part)

    def test_where_it_broke_stands_in_each_form(self):
        self.more_inputs()
        text = self.hunt("--inputs", "in puts", "--expect", "due", "--keep", "kept")
        self.assertIn("\nthat byte was written at: upper.c:11 in main: putchar(c);\n", text)
        page = sound(self, self.call("cbi-show", "--hunt", "kept", "--format", "html")[0])
        self.assertIn("That byte was written atupper.c:11 in main: putchar(c);", page.text)
        result = json.loads(self.call("cbi-show", "--hunt", "kept", "--format", "sarif")[0])["runs"][0]["results"][0]
        self.assertIn(" That byte was written at: upper.c:11 in main: putchar(c);.", result["message"]["text"])
        self.assertEqual([frame["location"]["physicalLocation"]["region"]["startLine"] for frame in result["stacks"][0]["frames"]], [11])

    def test_the_command_makes_the_run_again_where_nothing_is_kept(self):
        self.write("in puts/13 !", "x!\n%\\'\x01")
        out = self.hunt("--inputs", "in puts", "--rate", "1", "--runs", "26", "--turns", "5000")
        self.assertIn("smallest failing input, 13 ! (7 bytes): x!\\n%\\\\'\\001\nits output ended with: X\n", out)
        self.assertIn("\nthe run again: cbi transform --mode plain upper.c | cbi-explain -- cbi run --turns 5000 --input 'in puts/13 !' -\n", out)
        self.assertIn("It trapped: 14 Abort", self.again(out))
        self.write("lines of it", "ab\nx!%\\'\x01\nq\n" * 4)
        out = self.hunt("--inputs", "lines of it", "--rate", "1")
        self.assertIn("\nthe run again: printf 'x!%%\\\\'\"'\"'\\001\\n' >input; cbi transform", out)
        self.assertIn("It trapped: 14 Abort", self.again(out))
        self.assertEqual(self.read("input"), b"x!%\\'\x01\n")
        self.write("lines of it", ("ab\n" + "x" * 200 + "!\nq\n") * 4)
        out = self.hunt("--inputs", "lines of it", "--rate", "1")
        self.assertIn("\nthe run again: sed -n 2p 'lines of it' >input; cbi transform", out)
        self.assertIn("It trapped: 14 Abort", self.again(out))

    def test_a_long_input_is_clipped_and_the_command_has_all_of_it(self):
        """The page shows 240 of its 301 bytes, and the text as many as a line has room for."""
        self.write("in puts/13 !", "a\tb" * 100 + "!")
        out = self.hunt("--inputs", "in puts", "--runs", "26", "--html", "page.html")
        line = "smallest failing input, 13 ! (301 bytes): " + "a\\tb" * 80 + ".."
        self.assertIn(line[:cbi_show.command.WIDEST - 2] + "..\n", out)
        self.assertIn("<dd><code>" + "a\\tb" * 80 + "..</code></dd>", self.read("page.html").decode())
        self.assertIn("It trapped: 14 Abort", self.again(out))

    def test_an_output_that_is_closed_is_told_in_a_line(self):
        _, err = self.call("bash", "-c", "cbi-hunt upper.c --inputs 'in puts' >&-", due=2)
        self.assertEqual(err, "cbi-hunt: standard output is closed\n")

    def test_no_control_byte_comes_to_a_terminal(self):
        self.write("in puts/\x1b[2J!", "\x1b[2J!")
        self.write("upper.c", looking.UPPER.replace("    int c;\n", "    int c;\t/* \x1b[31m\x07 */\n"))
        out = self.hunt("--inputs", "in puts", "--rate", "1", "--runs", "26")
        self.assertIn("\\033[2J!", out)
        self.assertIn("\\033[31m\\007", out)
        command = re.search(r"^the run again: (.*)$", out, re.MULTILINE)[1]
        self.assertIn("--input $'in puts/\\033[2J!' -", command)
        self.assertIn("It trapped: 14 Abort", subprocess.run(["bash", "-c", command], stdout=subprocess.PIPE, cwd=self.room, env=environment(), check=True).stdout.decode())
        self.assertIsNone(re.search(r"[\x00-\x09\x0b-\x1f\x7f]", out), repr(out))

    def test_lines_are_as_wide_as_the_terminal(self):
        self.write("upper.c", looking.UPPER.replace("c -= 32;", "c -= 32; /* " + "wide " * 40 + "*/"))
        done = subprocess.run(["cbi-hunt", "upper.c", "--inputs", "both", "--rate", "1"], cwd=self.room, env=dict(environment(), COLUMNS="60"), stdout=subprocess.PIPE, check=False)
        lines = done.stdout.decode().split("\n")
        self.assertTrue(all(len(line) <= 60 for line in lines if not line.startswith("the run again: ")), lines)
        self.assertIn("     10 |             c -= 32; /* wide wide wide wide wide..", lines)
        self.assertIn(cbi_show.told.LINES_SAID, " ".join(lines))
        _, said = on_terminal(["cbi-hunt", "upper.c", "--inputs", "both"], self.room, 60, out=True)
        self.assertEqual(said.decode().replace("\r\n", "\n").split("\x1b[K")[-1].split("\n"), lines)

    def test_what_to_do_is_told_in_full_on_a_narrow_terminal(self):
        for words, due in ((["--turns", "0"], ["they are left out (--hangs fail counts them as failed) No run failed,", "- Where the bug shows in what the program writes, say what it should write: NAME.expected, --expect or --oracle. - Give",
                                               "- 12 runs were cut: allow more turns (--turns), or count them as failed (--hangs fail)."]),
                           (["--oracle", "false"], ["All runs that count failed, so there is nothing to compare them with. What may help:"])):
            done = subprocess.run(["cbi-hunt", "upper.c", "--inputs", "in puts", *words], cwd=self.room, env=dict(environment(), COLUMNS="50"), stdout=subprocess.PIPE, check=False)
            lines = done.stdout.decode().split("\n")
            self.assertEqual([line for line in lines if len(line) > 50 and not line.startswith("the run again: ")], [])
            for said in due:
                self.assertIn(said, " ".join(" ".join(lines).split()))


HANG = "#include <stdio.h>\nint main(void)\n{\n    int c = getchar();\n    while (c != 'x')\n        if (c == 'y')\n            c = 'x';\n    return 0;\n}\n"


class Hangs(Hunting):
    def test_runs_without_end_are_hunted(self):
        self.write("hang.c", HANG)
        for number, byte in enumerate("xyaxxybxyx"):
            self.write(f"words/{number}", byte)
        words = ["cbi-hunt", "hang.c", "--inputs", "words", "--turns", "1000", "--rate", "1", "--jobs", "1"]
        out, _ = self.call(*words, due=1)
        self.assertIn("10 runs on 10 inputs: 0 failed, 8 succeeded, 2 neither (2 cut)\n", out)
        self.assertIn("\nruns that were cut hang, or need more turns than --turns allows; they are left out (--hangs fail counts them as failed)\n", out)
        out, _ = self.call(*words, "--hangs", "fail", "--keep", "kept")
        self.assertTrue(out.startswith("The run never leaves the loop `while (c != 'x')` at hang.c:5 in main.\n"
                                       "2 hanging runs were made again, and last seen at line 6, main: if (c == 'y') (2).\nNo fact is beyond chance.\n"), out)
        self.assertEqual(out.count("The run never leaves"), 1)
        page = sound(self, self.read("kept/page.html").decode())
        self.assertEqual(page.headings[0], [1, "The run never leaves the loop while (c != 'x') at hang.c:5 in main."])
        self.assertIn("\nPerhaps by chance, hang.c:4 in main: c < 120 'x' after c = getchar()\nTrue in both failing runs that came there, and in none of the 8 others that did. Weak evidence: ", out)
        self.assertIn("\nended by: a hang (cut at --turns) (2 runs)\n", out)
        self.assertEqual(self.read("kept/runs").count(b" cut turns label fail "), 2)
        hang = json.loads(self.call("cbi-show", "--hunt", "kept", "--format", "sarif")[0])["runs"][0]["results"][0]
        self.assertEqual((hang["ruleId"], hang["level"], hang["locations"][0]["physicalLocation"]["region"]["startLine"]), ("hang", "error", 5))
        self.assertTrue(self.call("cbi-show", "--hunt", "kept", "--format", "quickfix")[0].startswith("hang.c:5: The run never leaves the loop `while (c != 'x')`"))
        _, err = self.call(*words, "--keep", "kept", due=2)
        self.assertIn("another hangs (fail, and not neither)", err)

    def test_the_loop_is_the_title_where_a_bug_hangs(self):
        """Ten of thirty inputs are a `y`-less text without an `x`, and go round for ever."""
        self.write("hang.c", HANG)
        for number in range(30):
            self.write(f"words/{number:02}", "ax"[number % 3 > 0] if number % 2 else "zy"[number % 3 > 0])
        out, _ = self.call("cbi-hunt", "hang.c", "--inputs", "words", "--turns", "1000", "--jobs", "1", "--hangs", "fail", "--keep", "kept")
        self.assertTrue(out.startswith("1 bug explains all 10 failing inputs (30 inputs).\n5 hanging runs were made again, and last seen at line "), out)
        self.assertIn("\n\nThe run never leaves the loop `while (c != 'x')` at hang.c:5 in main.\nhang.c:", out)
        page = sound(self, self.read("kept/page.html").decode())
        self.assertEqual(page.headings[0], [1, "The run never leaves the loop while (c != 'x') at hang.c:5 in main."])
        results = json.loads(self.call("cbi-show", "--hunt", "kept", "--format", "sarif")[0])["runs"][0]["results"]
        self.assertEqual([(one["ruleId"], one["level"]) for one in results[:2]], [("hang", "error"), (results[1]["ruleId"], "error")])
        self.assertTrue(results[1]["message"]["text"].startswith("The run never leaves the loop `while (c != 'x')` at hang.c:5 in main. "), results[1])

    def test_the_statement_is_told_at_which_a_run_without_end_was_seen_last(self):
        """From 3 on the half between 3 and 4 is 3 again and again, so the last new value is that of `low`."""
        self.write("half.c", "int main(void)\n{\n    int low = 0, high = 4, wanted = getchar() - '0';\n    while (low < high)\n        if ((low + high) / 2 <= wanted)\n            low = (low + high) / 2;\n"
                   "        else\n            high = (low + high) / 2;\n    return 0;\n}\n")
        for digit in "34567":
            self.write(f"digits/{digit}", digit)
        self.write("digits/end", "")
        out, _ = self.call("cbi-hunt", "half.c", "--inputs", "digits", "--turns", "1000", "--rate", "1", "--jobs", "1", "--runs", "30", "--hangs", "fail", due=None)
        self.assertIn("5 hanging runs were made again, and last seen at line 6, main: low = (low + high) / 2 (5).", out.replace("\n", " "))
