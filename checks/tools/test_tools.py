"""Looks at the scripts of tools/ as processes. What they should write stands here, or in the documents.

usage: test_tools.py CBI
"""
import ast
import json
import os
import pathlib
import re
import shutil
import subprocess
import sys
import unittest

sys.dont_write_bytecode = True
sys.path.insert(0, os.path.dirname(os.path.dirname(os.path.abspath(__file__))))
import looking  # noqa: E402
from looking import EXAMPLES, HOUSE, SCRIPTS, TOOLS, TOP, Case, environment, sources  # noqa: E402
from test_answers import Answer, Facts, Hangs, Numbers, Sections  # noqa: E402,F401: their cases are among those that are looked at
from test_broken import Loops, Marks, Memory, Outputs, Traps  # noqa: E402,F401
from test_bugs import Evidence, Lists, PortedFacts, Whose, Words  # noqa: E402,F401
from test_farms import Farm  # noqa: E402,F401
from test_given import Advice, Given, Hanging, Marked, Progress, Room, Wavering  # noqa: E402,F401
from test_given import Traps as TrapWords  # noqa: E402,F401
from test_hunts import Hunt, Sample  # noqa: E402,F401
from test_inputs import Folders, Mutants, Oracles, Smaller  # noqa: E402,F401
from test_lists import Listed, Retold, Without  # noqa: E402,F401
from test_manual import Manual  # noqa: E402,F401
from test_names import Every, Maps, Shown  # noqa: E402,F401
from test_neighbours import Changes, Neighbours  # noqa: E402,F401
from test_pages import Pages, Sarif, Style, sound  # noqa: E402,F401
from test_rates import Rates  # noqa: E402,F401
from test_reach import Flows, Reached, Reaches  # noqa: E402,F401
from test_real import Beginnings, BesideTheHunt, RandomPrograms, RealBench, RealRecords  # noqa: E402,F401
from test_screens import Screens  # noqa: E402,F401
from test_signals import Signals  # noqa: E402,F401
from test_since import Since  # noqa: E402,F401
from test_statuses import Statuses  # noqa: E402,F401
from test_texts import Lines, Port, Ported  # noqa: E402,F401
from test_ways import Ways  # noqa: E402,F401

sys.path.insert(0, TOOLS)
import cbi_show.rows  # noqa: E402
import cbi_show.source  # noqa: E402
from cbi_show import dialect, files  # noqa: E402

HEADER = "rank,predicate,scheme,function,line,text,f,s,fobs,sobs,failure,context,increase,importance\n"


class Scripts(Case):
    def test_they_run_on_an_old_python(self):
        for name in sources():
            with open(name, encoding="utf-8") as file:
                ast.parse(file.read(), name, feature_version=(3, 8))

    def test_their_types_fit(self):
        if not shutil.which("mypy"):
            self.skipTest("there is no mypy here")
        config = os.path.join(TOOLS, "mypy.ini")
        for folder in (TOOLS, HOUSE):
            modules = [name for name in sources() if name.startswith(folder + os.sep) and "cbi_port" not in name and not os.path.basename(name).startswith("cbi-")]
            done = subprocess.run(["mypy", "--config-file", config, "--cache-dir", self.path("cache"), "--scripts-are-modules", *modules], cwd=folder, stdout=subprocess.PIPE, stderr=subprocess.STDOUT, check=False)
            self.assertEqual(done.returncode, 0, done.stdout.decode())

    def test_no_module_is_long(self):
        looks = [str(name) for name in pathlib.Path(TOP, "checks").rglob("*.py")]
        for name in [name for name in sources() if "cbi_port" not in name] + looks:
            with open(name, encoding="utf-8") as file:
                self.assertLess(sum(1 for line in file), 500, name)

    def test_their_first_page_says_that_they_are_not_proved(self):
        for script in SCRIPTS:
            out, _ = self.call(script, "--help")
            self.assertIn("This script is not proved", out)
            with open(os.path.join(TOOLS, script), encoding="utf-8") as file:
                self.assertIn("Not proved.", "".join(file.readlines()[:3]))

    def test_words_that_are_wrong_have_status_2(self):
        for words in (["cbi-hunt"], ["cbi-show"], ["cbi-show", "a", "b"], ["cbi-hunt", "--rate", "0", "--inputs", "a", "b"], ["cbi-show", "--what"], ["cbi-port"], ["cbi-port", "--memory", "none", "a.c"]):
            _, err = self.call(*words, due=2)
            self.assertRegex(err, f"^{words[0]}: [^\n]+ \\({words[0]} --help says how it is used\\)\n$")

    def test_they_say_their_version(self):
        with open(os.path.join(TOP, "CHANGELOG.md"), encoding="utf-8") as file:
            self.assertIn(f"\n## {files.VERSION}", file.read())
        for script in SCRIPTS:
            self.assertEqual(self.call(script, "--version")[0], f"{script} {files.VERSION}\n")

    def test_a_closed_pipe_ends_them_quietly(self):
        done = subprocess.run(["bash", "-c", "cbi-explain --table | head -n 1"], stdout=subprocess.PIPE, stderr=subprocess.PIPE, env=environment(), check=False)
        self.assertEqual((done.stdout, done.stderr), (b"| Left out | Write in its place |\n", b""))


class Explain(Case):
    def explained(self, text, mode="plain"):
        """The refusal of a text, and what is said of it."""
        self.write("prog.c", text)
        _, said = self.call("cbi", "transform", "--mode", mode, "prog.c", due=5)
        out, _ = self.call("cbi-explain", "prog.c", given=said.encode())
        return said, out

    def test_what_is_left_out_is_named_and_what_is_written_in_its_place_is_taken(self):
        for entry in dialect.ENTRIES:
            with self.subTest(entry.name):
                _, out = self.explained(dialect.sample(entry.refused))
                self.assertIn(entry.name, out)
                self.assertIn(entry.advice, out)
                self.write("prog.c", dialect.sample(entry.written))
                self.call("cbi", "transform", "--mode", "full", "prog.c")

    def test_the_table_stands_in_the_documents(self):
        out, _ = self.call("cbi-explain", "--table")
        with open(os.path.join(TOP, "docs", "PORTING.md"), encoding="utf-8") as file:
            self.assertIn(out, file.read())

    def test_a_line_is_shown_as_it_stands(self):
        said, out = self.explained('int main(void)\r\n{\r\n    int n;\r\n    scanf("%d", &n);\r\n}\r\n')
        self.assertEqual(said, "cbi: refusal 15 BadType kind 1 line 4\n")
        self.assertEqual(out.split("\n")[:3], ["cbi: refusal 15 BadType kind 1 line 4", "", '    4 |     scanf("%d", &n);'])

    def test_control_bytes_are_made_visible(self):
        _, out = self.explained("int main(void)\n{\n \x1b[2J return 0;\n}\n")
        self.assertEqual(out.split("\n")[2], "    3 |  \\033[2J return 0;")
        for words in (["cbi-show", "no\x1b[2J"], ["cbi-explain", "no\x1b[2J"], ["cbi-hunt", "no\x1b[2J", "--inputs", "."]):
            _, err = self.call(*words, due=2)
            self.assertTrue(err.startswith(f"{words[0]}: no\\033[2J: "), err)

    def test_each_kind_has_its_rule(self):
        texts = {1: "int main(void){return x;}", 2: "int x;int x;int main(void){}", 3: "int main(void){int *p;p=p+p;}", 4: "int main(void){1=2;}",
                 5: "int f(int a){return a;}int main(void){f();}", 6: "void x;int main(void){}", 7: "int a[1]={1,2};int main(void){}",
                 8: "int main(void){break;}", 9: "int x;", 10: "int f(void);int main(void){f();}"}
        begins = {1: "A name, a member or a tag isn't known", 2: "The name is declared twice", 3: "The operands don't fit", 4: "This is no place",
                  5: "The arguments of a call don't fit", 6: "An object of a type that isn't complete", 7: "The initialiser doesn't fit",
                  8: "A break or continue outside a loop", 9: "There is no definition of `int main(void)`", 10: "This function is called and never defined"}
        for kind, text in texts.items():
            said, out = self.explained(text)
            self.assertEqual(said, f"cbi: refusal 15 BadType kind {kind} line 1\n")
            self.assertIn(begins[kind], out)

    def test_each_trap_has_its_rule(self):
        bodies = {1: "return 2147483647+1;", 2: "int z=0;return 1/z;", 3: "int n=32;return 1<<n;", 4: "int x;return x;",
                  5: "void *p=malloc(1);char *c=p;int *i=p;*c='a';return *i;", 6: "int a[2];int i=2;a[i]=1;", 7: "int *p=malloc(1);free(p);*p=1;",
                  8: "int *p=NULL;*p=1;", 9: 'char *s="a";*s=\'b\';', 10: "int x;free(&x);", 11: "int a;int b;return &a<&b;", 12: "return main();",
                  13: "assert(0);", 14: "abort();"}
        for trap, body in bodies.items():
            self.transform("int main(void){" + body + "}", "plain")
            self.call("cbi", "run", "--report", "report", "prog.cbi")
            out, _ = self.call("cbi-explain", "report")
            self.assertIn(f"It trapped: {trap} {files.TRAPS[trap][0]}, ", out)
            self.assertIn("It counts as failing.", out)

    def test_traps_are_those_of_the_definition_and_of_the_documents(self) -> None:
        with open(os.path.join(TOP, "crates", "cbi_base", "specs", "Trap.antt"), encoding="utf-8") as it:
            defined = {int(number): name for name, number in re.findall(r"(?m)^trap_number (\w+) = (\d+)$", it.read())}
        self.assertEqual({trap: name for trap, (name, _) in files.TRAPS.items()}, defined)
        with open(os.path.join(TOP, "docs", "PORTING.md"), encoding="utf-8") as it:
            told = {int(trap): (name, meaning) for trap, name, meaning in re.findall(r"(?m)^\| (\d+) \| (\w+) \| ([^|]*) \|", it.read())}
        # a program that cbi wrote never comes to 99, so the table of the documents leaves it out
        self.assertEqual({trap: said for trap, said in files.TRAPS.items() if trap != 99}, told)

    def test_a_report_is_explained_with_its_sites(self):
        self.transform("int main(void){int i;\nfor(i=0;i<7;i++);\nreturn 0;}", "full", "branches")
        self.call("cbi", "run", "--run", "3", "--report", "a report", "prog.cbi")
        out, _ = self.call("cbi-explain", "--program", "prog.cbi", "a report")
        identity = files.read_program(self.path("prog.cbi")).identity
        self.assertEqual(out, f"Run 3 of the program {identity[:12]}..\nIt ended with status 0.\nIt counts as successful.\nIt was observed at 1 site.\n"
                         ""
                         "  line 2, main: `for is true` 7 times, `for is false` 1 time\n")
        given = self.read("a report")
        self.assertEqual(self.call("cbi-explain", "--program", "prog.cbi", given=given)[0], out)

    def test_what_is_no_text_is_explained_too(self):
        self.write("x.c", "int main(void){}")
        for words, due, said in ((["run", "x.c"], 5, "A C text is none: compile it first"), (["run", "--turns", "01", "x.c"], 2, "--turns takes a number from 0 to 100000000."),
                                 (["run", "missing"], 3, "isn't there"), (["walk"], 2, "The words read as no command.")):
            _, err = self.call("cbi", *words, due=due)
            self.assertIn(said, self.call("cbi-explain", given=err.encode())[0])

    def test_a_part_that_is_another_is_explained(self):
        self.transform("int main(void){int a=1;if(a);return 0;}")
        self.write("runs", f"cbi-collection 2\nprogram {files.read_program(self.path('prog.cbi')).identity}\nend\n")
        _, err = self.call("cbi", "widen", "--whole", "prog.cbi", "--part", "0/2", "prog.cbi", "runs", due=5)
        self.assertEqual(err, "cbi: refusal 32 NotPart\n")
        self.assertIn("hasn't that part of the sites", self.call("cbi-explain", given=err.encode())[0])
        _, err = self.call("cbi", "transform", "--mode", "plain", "--part", "2/2", "prog.c", due=2)
        self.assertIn("--part takes two numbers as 0/4", self.call("cbi-explain", given=err.encode())[0])

    def test_refused_edits_are_explained(self):
        self.transform("int main(void){return 0;}", "plain")
        for edits, refusal, said in (("remove 7\nend\n", "31 Absent run 7", "names a run that isn't held"), ("rank\n", "30 BadEdits line 3", "no text of edits from this line on")):
            self.write("edits", "cbi-edits 1\n" + edits)
            _, err = self.call("cbi", "session", "--program", "prog.cbi", "edits", due=5)
            self.assertEqual(err, f"cbi: refusal {refusal}\n")
            self.assertIn(said, self.call("cbi-explain", given=err.encode())[0])

    def test_a_command_is_run_and_what_it_comes_to_explained(self):
        self.write("x.c", "int main(void) { int *p = NULL; putchar(getchar()); return *p; }\n")
        out, _ = self.call("bash", "-c", "printf q | cbi-explain -- cbi transform --mode plain x.c >prog.cbi; printf q >input; cbi-explain -- cbi run --input input prog.cbi", due=0)
        self.assertRegex(out, r"^qRun 1 of the program [0-9a-f]{12}\.\.\nIt trapped: 8 NullUse, null pointer dereference\. ")
        out, _ = self.call("cbi-explain", "--", "cbi", "run", "--input", "input", "--report", "kept report", "prog.cbi")
        self.assertIn("It trapped: 8 NullUse", out)
        self.assertIn(b"outcome trapped 8", self.read("kept report"))
        out, err = self.call("cbi-explain", "--", "cbi", "run", "x.c")
        self.assertIn("A C text is none: compile it first", out)
        self.write("x.c", "int main(void)\n{\n    bigint n;\n    return 0;\n}\n")
        out, _ = self.call("cbi-explain", "--", "cbi", "transform", "--mode", "plain", "x.c")
        self.assertIn("    3 |     bigint n;\n", out)
        self.assertIn("no type has that name, and typedef isn't taken.", out)
        self.assertIn("no-such-command doesn't start: No such file", self.call("cbi-explain", "--", "no-such-command", due=2)[1])
        self.assertIn("a command is asked for behind --", self.call("cbi-explain", "--", due=2)[1])

    def test_a_run_of_which_nothing_says_what_it_should_write_is_told_so(self):
        self.transform("int main(void) { putchar('a'); return 0; }\n", "plain")
        self.write("due", "b")
        for words, said in (([], "It counts as successful, since no --expect says what it should write."), (["--expect", "due"], "It counts as failing: its output wasn't the expected one."),
                            (["--expect=prog.cbi"], "It counts as failing: its output wasn't the expected one.")):
            self.assertIn(f"\nIt ended with status 0.\n{said}\n", self.call("cbi-explain", "--", "cbi", "run", *words, "prog.cbi")[0])
        self.write("due", "a")
        self.assertIn("\nIt counts as successful.\n", self.call("cbi-explain", "--", "cbi", "run", "--expect", "due", "prog.cbi")[0])
        os.symlink(looking.CBI, self.path("cbi.old"))
        self.assertIn("\nIt ended with status 0.\n", self.call("cbi-explain", "--", "./cbi.old", "run", "prog.cbi")[0])

    def test_functions_and_headers_that_are_not_there_are_told(self):
        for text, name in (('int main(void){int n;n=strtol("5",0,10);return n;}', "`atoi`, `strtol`, `abs`, `qsort`, `rand`, `time`"), ("#include <ctype.h>\nint main(void){return 0;}", "`#include <ctype.h>`"),
                           ("bigint f(int n) { return n; }\nint main(void){return 0;}", "a type that has no name here")):
            self.assertIn(f"Left out of the dialect: {name}.\n", self.explained(text)[1])

    def test_all_places_of_a_text_are_named_by_kind(self):
        out, _ = self.call("cbi-explain", "--all", os.path.join(EXAMPLES, "ported", "stock.c"))
        for entry, lines in (("`switch`", "lines 117, 118, 119, 126, 129, 132"), ("`typedef`", "lines 17, 21, 26"), ("`scanf`", "lines 116, 120"), ("`#include <ctype.h>`", "line 4")):
            self.assertIn(f"\n{entry}: {lines}\n", out)
        for example in ("editor", "greatest", "longest", "lookup", "till", "orders"):
            _, err = self.call("cbi-explain", "--all", os.path.join(EXAMPLES, example, example + ".c"), due=1)
            self.assertIn("nothing is seen that the dialect leaves out", err)
        self.write("own.c", "/* switch\n typedef */\nint isdigit(int c)\n{\n    return c >= '0'; /* long */\n}\nint main(void) { return isdigit('3') + \"goto\"[0]; }\n")
        self.call("cbi-explain", "--all", "own.c", due=1)
        self.call("bash", "-c", "cbi transform --mode plain own.c >own.cbi")
        self.assertIn("\nIt ended with status 104.\n", self.call("cbi-explain", "--", "cbi", "run", "own.cbi")[0], "a g is 103 (ISO 646), and '3' is a digit")
        self.assertIn("--all asks for a C text", self.call("cbi-explain", "--all", due=2)[1])

    def test_where_nothing_was_refused_it_says_so(self):
        _, err = self.call("cbi-explain", given=b"added 3 repeated 0\n", due=1)
        self.assertIn("nothing to explain", err)
        self.call("cbi-explain", "missing.c", given=b"cbi: refusal 12 Syntax line 1\n", due=2)


# A program with one branch, and 20 runs of it: those of docs/METHOD.md. Its thermometer, by hand: context 10/20, failure 9/10. The shares of
# failing and successful runs are 9/10 and 1/10, the interval of their difference 0.8 +- 1.96 * sqrt(0.09/10 + 0.09/10) = 0.8 +- 0.262962, and that
# of Increase half of it, from 0.268519 to 0.531481.
BRANCH = "int main(void){int a=getchar();if(a);return 0;}\n"
BRANCH_ROW = "1,0,branches,main,1,if is true,9,1,10,10,900000,500000,400000,563706\n"
# Its strength: e = 9 * 10 - 1 * 10 = 80, and 6400 / (100 * 10 * 10). In the run that is left `if` is false, as in nine others.
BRANCH_ROWS = """\
  1. line 1, main: if (a) is true
     fails 50 % of the time when reached, 90 % when this is true
     [################=========----...] importance 0.564
     true in 9 failing runs and 1 successful run; looked at in 10 failing and 10 successful
     its failing runs ended by a call of abort (trap 14, 9 runs)
     first failing run: 1
     1 | int main(void){int a=getchar();if(a);return 0;}

Each row is about the runs that no row above it explains. Bar length: number of runs. # failure rate when the
line is reached; = extra failure rate when the predicate is true (95 % lower bound); - what it may add beyond
that; . success rate when it is true.
"""
BRANCH_TEXT = """\
1 bug explains 9 of the 10 failing runs; 1 is left over (20 runs).

prog.c:1 in main: if (a) was true
True in 9 of the 10 failing runs that looked there, and in 1 of the 10 others that did.

>     1 | int main(void){int a=getchar();if(a);return 0;}

ended by: a call of abort (trap 14, 9 runs)

1 weak fact about 1 other failing run: by chance, more than 1 hunt in 20 has one this strong (--all shows it).

ranked: 20 runs, of which 10 failed and 10 succeeded

Suspicious lines:
  0.640  line 1, main: if (a) was true (9 of 10 failing, 1 of 10 others)
Each line by its best fact, one for each three around. Strength is the square of the correlation between the
fact and failing: 1 where it was true in all failing runs and in no other.

"""
BRANCH_FOLDED = "The ranking of cbi rank has 1 row (--all shows it, with what falls with each).\n"


class Show(Case):
    def setUp(self):
        super().setUp()
        self.transform(BRANCH, "full", "branches")
        identity = files.read_program(self.path("prog.cbi")).identity
        runs = []
        for run in range(1, 21):
            failing, true = run <= 10, run <= 9 or run == 11
            runs.append(f"run {run} {'trapped 14' if failing else 'ended 0'} label {'fail' if failing else 'pass'} work 0 0 0\nsite 0 {int(true)} {int(not true)} 0\n")
        self.write("runs", f"cbi-collection 2\nprogram {identity}\n" + "".join(runs) + "end\n")
        out, _ = self.call("cbi", "rank", "prog.cbi", "runs")
        self.assertEqual(out, HEADER + BRANCH_ROW)
        self.write("ranking", out)

    def show(self, *words, given=b"", due=0):
        return self.call("cbi-show", *words, given=given, due=due)[0]

    def page(self, *words):
        """The page, parsed: it stands alone, and each of its links leads somewhere in it."""
        text = self.show(*words, "--format", "html")
        page = sound(self, text)
        return page, text

    def test_the_worked_ranking_as_text(self):
        self.assertEqual(self.show("ranking", "--source", "prog.c", "--program", "prog.cbi", "--reports", "runs"), BRANCH_TEXT + BRANCH_FOLDED)
        self.write("cards", self.call("cbi", "cards", "prog.cbi", "runs")[0])
        self.assertEqual(self.read("cards"), b"card 1 0 main 1 if is true\ntruth 9 1 first 1\nend\n")
        self.assertEqual(self.show("ranking", "--source", "prog.c", "--program", "prog.cbi", "--reports", "runs", "--cards", "cards"), BRANCH_TEXT + BRANCH_FOLDED)
        self.assertEqual(self.show("-", "--source", "prog.c", "--program", "prog.cbi", "--reports", "runs", given=self.read("ranking").replace(b"\n", b"\r\n")), BRANCH_TEXT + BRANCH_FOLDED)
        every = self.show("ranking", "--source", "prog.c", "--program", "prog.cbi", "--reports", "runs", "--all")
        self.assertTrue(every.endswith("\n\nThe ranking of cbi rank:\n\n" + BRANCH_ROWS), every)
        self.assertIn("B. Perhaps by chance, prog.c:1 in main: if (a) was false\nOf the 1 failing run that no bug above explains, true in the one that looked there, and in 9 of the 10 others\nthat did. Weak evidence: of 2 facts tested, about 1.8 would look this strong by chance.\n", every)

    def test_a_ranking_alone_is_shown_by_its_rows(self):
        self.write("cards", self.call("cbi", "cards", "prog.cbi", "runs")[0])
        rows = BRANCH_ROWS.replace("     its failing runs ended by a call of abort (trap 14, 9 runs)\n", "").replace("main: if (a) is", "main: if is")
        self.assertEqual(self.show("ranking", "--source", "prog.c", "--cards", "cards"), "prog.c:1 in main: if was true\n\n" + rows)
        page, _ = self.page("ranking", "--source", "prog.c")
        self.assertEqual(page.headings[0], [1, "prog.c:1 in main: if was true"])
        self.assertIn("True in 9 failing runs and 1 successful run; looked at in 10 failing and 10 successful.", page.text)

    def test_its_thermometer(self):
        row = files.read_ranking(self.path("ranking")).rows[0]
        bands = cbi_show.rows.bands(row, 10)
        for got, due in zip(bands, (0.5, 0.268519, 0.131481, 0.1, 1.0)):
            self.assertAlmostEqual(got, due, places=6)
        self.assertAlmostEqual(cbi_show.rows.bands(row, 120).length, 0.5, places=6)  # 121 is the square of 11

    def test_its_page(self):
        page, text = self.page("ranking", "--source", "prog.c", "--program", "prog.cbi", "--reports", "runs")
        self.assertIn("True in 9 failing runs and 1 successful run; looked at in 10 failing and 10 successful.", page.folded)
        self.assertIn("Importance 0.564: context 50 %, increase at least 27 % and up to 13 % more, successful runs 10 %.", page.folded)
        self.assertIn("p0", page.ids)
        self.assertEqual(page.links, ["#main", "#suspicious", "#endings", "#ranking", "#source", "#reading", "#L1", "#L1", "#answer"])

    def test_sarif_has_what_the_standard_requires(self):
        log = json.loads(self.show("ranking", "--source", "prog.c", "--format", "sarif"))
        self.assertEqual((log["version"], log["$schema"]), ("2.1.0", "https://json.schemastore.org/sarif-2.1.0.json"))
        driver = log["runs"][0]["tool"]["driver"]
        self.assertEqual(driver["name"], "cbi")
        for result in log["runs"][0]["results"]:
            self.assertTrue(result["message"]["text"])
            self.assertEqual(driver["rules"][result["ruleIndex"]]["id"], result["ruleId"])
            place = result["locations"][0]["physicalLocation"]
            self.assertEqual((place["artifactLocation"], place["region"]), ({"uri": pathlib.Path(self.path("prog.c")).as_uri()}, {"startLine": 1, "snippet": {"text": BRANCH.rstrip()}}))
            self.assertEqual(result["rank"], 56.3706)
        self.write("a folder/50%.c", BRANCH)
        log = json.loads(self.show("ranking", "--source", "a folder/50%.c", "--format", "sarif"))
        self.assertEqual(log["runs"][0]["results"][0]["locations"][0]["physicalLocation"]["artifactLocation"]["uri"],
                         pathlib.Path(self.path("a folder", "50%.c")).as_uri())

    def test_lines_for_editors(self):
        self.assertEqual(self.show("ranking", "--source", "prog.c", "--format", "quickfix"),
                         "prog.c:1: if is true: true in 9 failing runs and 1 successful run; looked at in 10 failing and 10 successful\n")

    def test_a_study_is_taken_with_its_last_line(self):
        out, _ = self.call("cbi", "study", "--runs", "200", "--seed", "7", "--rate", "10", "--turns", "100000", os.path.join(EXAMPLES, "lookup", "lookup.c"))
        summary = re.search(r"study runs 200 failed (\d+) ended (\d+) cut 0", out)
        assert summary, out
        text = self.show("-", "--source", os.path.join(EXAMPLES, "lookup", "lookup.c"), given=out.encode())
        self.assertIn(f"\n\nranked: 200 runs, of which {summary[1]} failed and {summary[2]} succeeded\n\n", text)

    def test_constants_that_print_are_shown_as_characters(self):
        rows = [("c == 63", "c == 63 '?'"), ("c < 39", "c < 39 '\\''"), ("c > 92", "c > 92 '\\\\'"), ("c >= 10", "c >= 10"), ("c < d", "c < d"), ("c != 127", "c != 127")]
        for text, due in rows:
            self.assertEqual(cbi_show.source.with_character("pairs", text), due)
        self.assertEqual(cbi_show.source.with_character("returns", "getchar > 50"), "getchar > 50")

    def test_cards_bring_rows_together(self):
        self.transform("int main(void){int a=getchar();\nif(a);\nif(a);\nif(a);\nreturn 0;}\n", "full", "branches")
        self.write("ranking", HEADER + "1,0,branches,main,2,if is true,9,1,10,10,900000,500000,400000,563706\n"
                   "2,5,branches,main,4,if is false,4,0,5,5,1000000,500000,500000,400000\n3,2,branches,main,3,if is true,3,0,4,4,1000000,500000,500000,300000\n"
                   "4,4,branches,main,4,if is true,1,0,1,3,1000000,250000,750000,0\n")
        self.write("cards", "card 1 0 main 2 if is true\ntruth 9 1 first 17\nnear 2 200000 if is true\nnear 1 100 if is false\ncard 2 5 main 4 if is false\n"
                   "truth 4 0 first 3\nnear 0 563706 if is true\ncard 3 2 main 3 if is true\ntruth 5 0 first 17\ncard 4 4 main 4 if is true\ntruth 2 0 first 20\nend\n")
        text = self.show("ranking", "--source", "prog.c", "--program", "prog.cbi", "--cards", "cards")
        heads = [line for line in text.split("\n") if re.match(r"[ |]*\d+\. line", line)]
        self.assertEqual(heads, ["  1. line 2, main: if (a) is true", "     |   3. line 3, main: if (a) is true", "  2. line 4, main: if (a) is false", "  4. line 4, main: if (a) is true"])
        self.assertIn("     falls with it: line 2, main: if (a) is false (by 0.000)\n", text)
        self.assertIn("Rows of importance 0:\n", text)
        self.assertIn("     |      among all runs: 5 failing runs and no successful runs\n", text)
        page, html_text = self.page("ranking", "--source", "prog.c", "--program", "prog.cbi", "--cards", "cards")
        self.assertIn('<a href=#p2>if (a) is true</a>, <a href=#L3>line 3</a>, by 0.200', html_text)
        self.assertIn("These rows are mostly about the same runs", page.text)
        self.write("cards", "card 1 0 main 2 if is true\ntruth 9 first\n")
        _, err = self.call("cbi-show", "ranking", "--cards", "cards", due=2)
        self.assertEqual(err, "cbi-show: cards: no cards: line 2 has not the form of one\n")

    def test_pairs_that_no_statement_names_together_stand_apart(self):
        source = ["int g;", "int f(int a, int b)", "{", "    int i = 0; /* a b i */", "    while (a < b) { a++; i++; }", "    g = i;", "    return a;", "}", "int main(void) { return f(1, 2); }"]
        bodies = cbi_show.rows.bodies(source)
        self.assertEqual(sorted(bodies), ["f", "main"])
        for text, due in (("a < b", False), ("a < i", True), ("i == g", False), ("a < 3", False), ("b > g", True)):
            self.assertEqual(cbi_show.rows.unrelated(files.Row(1, 0, "pairs", "f", 5, text, 1, 1, 1, 1, 0, 0, 0, 1), bodies), due, text)

    def test_what_is_no_file_of_its_kind_has_status_2(self):
        self.write("empty", "")
        for words, said in ((["runs"], "runs: no ranking"), (["missing"], "missing: No such file"), (["ranking", "--program", "prog.c"], "prog.c: no program file"),
                            (["ranking", "--source", "no.c"], "no.c: No such file"), (["ranking", "--program", "prog.cbi", "--reports", "ranking"], "ranking: no collection"),
                            (["empty"], "empty: no ranking"), (["--sites", "prog.cbi", "1"], "1 is no site: the program has 1 site")):
            out, err = self.call("cbi-show", *words, due=2)
            self.assertEqual(out, "")
            self.assertTrue(err.startswith("cbi-show: " + said), err)
        self.write("other", HEADER + "1,0,branches,main,2,if is true,9,1,10,10,900000,500000,400000,563706\n")
        _, err = self.call("cbi-show", "other", "--program", "prog.cbi", due=2)
        self.assertIn("isn't of this program", err)

    def test_a_ranking_without_rows(self):
        self.write("ranking", HEADER)
        self.assertIn("No predicate passes the test", self.show("ranking", due=1))
        self.assertIn("No predicate passes the test", self.call("cbi-show", "ranking", "--format", "html", due=1)[0])

    def test_sites_of_the_worked_text(self):
        self.transform("int x;\nint main(void)\n{\n    int y = 1;\n    { char x; x = getchar(); }\n    while (y < 3)\n        y += x;\n    return 0;\n}\n")
        lines = self.show("--sites", "prog.cbi").split("\n")
        self.assertEqual(len(lines), 14)
        self.assertEqual(lines[0], "site 0, line 4, main: the new value of `y` beside `x`; predicates 0 to 5, `y < x` to `y != x`")
        self.assertEqual(lines[7], "site 7, line 5, main: what `getchar` returns, beside 0; predicates 42 to 47, `getchar < 0` to `getchar != 0`")
        self.assertEqual(self.show("--sites", "prog.cbi", "8", "12"), "site 8, line 6, main: whether the condition of `while` is true; predicates 48 to 49, `while is true` to `while is false`\n"
                         "site 12, line 7, main: the new value of `y` beside the constant `0`; predicates 68 to 73, `y < 0` to `y != 0`\n")


class Result(unittest.TextTestResult):
    def addSkip(self, test, reason):
        super().addSkip(test, reason)
        print(f"checks/tools: {test.id().split('.')[-1]} skipped: {reason}")


def main():
    looking.CBI = os.path.abspath(sys.argv.pop(1))
    program = unittest.main(module=__name__, exit=False, verbosity=0, argv=sys.argv, testRunner=unittest.TextTestRunner(stream=sys.stdout, verbosity=0, resultclass=Result))
    result = program.result
    failed = len({test.id() for test, _ in result.failures + result.errors})
    print(f"checks/tools: {result.testsRun - failed - len(result.skipped)} passed, {failed} failed, {len(result.skipped)} skipped")
    sys.exit(1 if failed else 0)


if __name__ == "__main__":
    main()
