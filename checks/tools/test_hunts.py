"""Looks at the runs of a hunt, as test_tools does at the rest: that they are those that the commands of `cbi` make, and that a hunt goes on where it stopped."""
import json
import os
import re
import signal
import subprocess
import sys

import looking
from test_pages import Page
from looking import UPPER, Case, Hunting, environment, heed_interrupts, on_terminal

sys.path.insert(0, looking.TOOLS)
from cbi_hunt import collecting  # noqa: E402
from cbi_hunt.kept import missing_batches  # noqa: E402
from cbi_hunt.runs import Batch  # noqa: E402
from cbi_show.hunted import Sample as Told  # noqa: E402

FEW = "Only 1 input fails: --neighbours 200 makes and judges inputs near the smallest of them."
FEW_EXPECTED = "Only 1 input fails: with an oracle in place of expected outputs, --neighbours 200 makes and judges inputs near the smallest of them."


class Hunt(Hunting):
    def report_by_hand(self, run, name, program, rate=5):
        """The report of a run on an input, as the commands of `cbi` make it."""
        self.write("bank", self.call("cbi", "bank", "--rate", str(rate), "--count", "256", "--seed", "1", "--stream", str(run))[0])
        report = self.path(f"report {run}")
        self.call("cbi", "run", "--bank", "bank", "--input", os.path.join("in puts", name), "--expect", os.path.join("due", name), "--run", str(run), "--report", report, program)
        return report

    def runs_by_hand(self, count, rate=5):
        """The collection of so many runs as the commands of `cbi` make it, one after another."""
        self.write("plan.cbi", self.call("cbi", "transform", "--mode", "sampled", "upper.c")[0])
        names = sorted(os.listdir(self.path("in puts")))
        reports = [self.report_by_hand(run, names[(run - 1) % len(names)], "plan.cbi", rate) for run in range(1, count + 1)]
        return self.call("cbi", "collect", "--program", "plan.cbi", *reports)[0].encode()

    def test_its_runs_are_those_that_the_commands_make(self):
        out = self.hunt("--inputs", "in puts", "--expect", "due", "--runs", "30", "--rate", "5", "--keep", "kept hunt")
        self.assertEqual(self.read("kept hunt/runs"), self.runs_by_hand(30))
        for file, *command in (("ranking", "rank"), ("cards", "cards"), ("lines", "lines", "--most=1000", "--apart=0"), ("bugs", "bugs", "--most=10", "--also=40")):
            self.assertEqual(self.read(f"kept hunt/{file}").decode(), self.call("cbi", *command, "plan.cbi", "kept hunt/runs")[0])
        self.assertIn("\n\n30 runs on 12 inputs: 8 failed, 22 succeeded\nfailing inputs: 02 abc, 04 zza, 08 caa, in kept hunt/failing\n\n", out)
        self.assertEqual(sorted(os.listdir(self.path("kept hunt/failing"))), ["02 abc", "04 zza", "08 caa"])
        self.assertEqual(sorted(os.listdir(self.path("kept hunt"))), ["batches", "bugs", "cards", "failing", "hunt.json", "hunt.lock", "lines", "page.html", "pairs", "plain", "program", "ranking",
                                                                          "runs", "source.c", "told.json"])

    def test_at_rate_1_a_run_needs_no_bank(self):
        """A made bank of rate 1 has ones alone, and without a bank each visit is observed: the reports are the same, counters and work."""
        self.hunt("--inputs", "in puts", "--expect", "due", "--rate", "1", "--keep", "kept")
        self.assertEqual(self.read("kept/runs"), self.runs_by_hand(12, 1))

    def test_runs_of_parts_are_those_that_the_commands_make(self):
        self.hunt("--inputs", "in puts", "--expect", "due", "--runs", "27", "--rate", "5", "--parts", "3", "--keep", "kept")
        self.write("plan.cbi", self.call("cbi", "transform", "--mode", "sampled", "upper.c")[0])
        names = sorted(os.listdir(self.path("in puts")))
        # the twelve inputs come round twice, and three of them once more: each time an input has the next part
        runs_of = {0: [1, 4, 7, 10, 15, 18, 21, 24, 26], 1: [2, 5, 8, 11, 13, 16, 19, 22, 27], 2: [3, 6, 9, 12, 14, 17, 20, 23, 25]}
        for part, runs in runs_of.items():
            self.write(f"part{part}.cbi", self.call("cbi", "transform", "--mode", "sampled", "--part", f"{part}/3", "upper.c")[0])
            reports = [self.report_by_hand(run, names[(run - 1) % 12], f"part{part}.cbi") for run in runs]
            self.write("narrow", self.call("cbi", "collect", "--program", f"part{part}.cbi", *reports)[0])
            self.write(f"wide{part}", self.call("cbi", "widen", "--whole", "plan.cbi", "--part", f"{part}/3", f"part{part}.cbi", "narrow")[0])
        out, err = self.call("cbi", "collect", "--program", "plan.cbi", "wide0", "wide1", "wide2")
        self.assertEqual(err, "added 27 repeated 0\n")
        self.assertEqual(self.read("kept/runs").decode(), out)
        self.assertEqual(self.read("kept/ranking").decode(), self.call("cbi", "rank", "plan.cbi", "kept/runs")[0])
        self.assertIn("another number of parts", self.hunt("--inputs", "in puts", "--expect", "due", "--keep", "kept", due=2))

    def test_each_way_to_say_what_is_right_ranks_the_same(self):
        rankings = set()
        for words in (["--inputs", "in puts", "--expect", "due"], ["--inputs", "both"], ["--inputs", "in puts", "--oracle", "python3 judge.py"],
                      ["--inputs", "lines", "--expect", "due lines"], ["--inputs", "lines", "--oracle", f"{sys.executable} judge.py"]):
            folder = f"kept {len(os.listdir(self.room))}"
            self.hunt(*words, "--rate", "2", "--runs", "120", "--keep", folder)
            self.assertNotIn(b"label none", self.read(folder + "/runs"))
            rankings.add((words[1] == "lines", self.read(folder + "/ranking")))
        self.assertEqual(len(rankings), 2)

    def test_the_bug_leads_and_so_does_its_row_and_the_page_is_sound(self):
        self.more_inputs()
        out = self.hunt("--inputs", "both", "--runs", "600", "--rate", "2", "--all", "--html", "a page.html")
        first = next(line for line in out.split("\n") if line.startswith("  1. "))
        self.assertIn(first, ("  1. line 9, main: c > 'a' (left of &&) is false", "  1. line 6, main: c == 97 'a' after c = getchar()"))
        self.assertRegex(out, r"^[0-9]+ bugs?,? .*explains? all 9 failing inputs \(600 runs on 36 inputs\)\.\n\n(A\. )?upper.c:(6|9) in main: (c == 97 'a' after c = getchar|c > 'a' \(left of &&\) was false|if \(c > 'a' && c <= 'z'\) was false)")
        page = Page(self.read("a page.html").decode())
        self.assertEqual([link for link in page.links if link[1:] not in page.ids], [])

    def test_it_goes_on_where_it_stopped(self):
        self.hunt("--inputs", "both", "--rate", "2", "--runs", "20000", "--keep", "whole")
        words = ["cbi-hunt", "upper.c", "--inputs", "both", "--rate", "2", "--runs", "20000", "--jobs", "2", "--keep", "parts"]
        begun = subprocess.Popen(words, cwd=self.room, env=environment(), stdout=subprocess.PIPE, stderr=subprocess.PIPE, start_new_session=True, preexec_fn=heed_interrupts)
        self.wait_for(lambda: os.path.isdir(self.path("parts/batches")) and os.listdir(self.path("parts/batches")))
        os.killpg(begun.pid, signal.SIGINT)
        out, err = begun.communicate()
        self.assertEqual((begun.returncode, err), (130, b""))
        self.assertIn(b"interrupted, so this is what there is", out)
        made = re.search(rb"^(\d+) runs on", out, re.MULTILINE)
        assert made, out
        self.assertLess(int(made[1]), 20000)
        self.hunt("--inputs", "both", "--rate", "2", "--runs", "12000", "--keep", "parts")
        self.hunt("--inputs", "both", "--rate", "2", "--runs", "20000", "--keep", "parts")
        self.assertEqual(self.read("parts/runs"), self.read("whole/runs"))
        self.assertEqual([name for name in os.listdir(self.path("parts")) if "worker" in name or "merge" in name], [])

    def test_a_hunt_that_is_ended_by_force_leaves_its_folder_free(self):
        begun = subprocess.Popen(["cbi-hunt", "upper.c", "--inputs", "both", "--rate", "2", "--runs", "1000000", "--jobs", "2", "--keep", "kept"], cwd=self.room, env=environment())
        self.wait_for(lambda: os.path.isdir(self.path("kept")) and [name for name in os.listdir(self.path("kept")) if name.startswith("worker-")])
        _, err = self.call("cbi-hunt", "upper.c", "--inputs", "both", "--runs", "12", "--keep", "kept", due=2)
        self.assertIn("another hunt is at work", err)
        workers = [int(number) for number in open(f"/proc/{begun.pid}/task/{begun.pid}/children", encoding="ascii").read().split()]
        begun.kill()
        begun.wait()
        self.assertTrue(workers)
        self.wait_for(lambda: not any(os.path.exists(f"/proc/{worker}") for worker in workers))
        self.assertEqual([worker for worker in workers if os.path.exists(f"/proc/{worker}")], [])
        self.hunt("--inputs", "both", "--rate", "2", "--runs", "12", "--keep", "kept")
        self.hunt("--inputs", "both", "--rate", "2", "--runs", "12", "--keep", "anew")
        if os.listdir(self.path("kept/batches")) == os.listdir(self.path("anew/batches")):
            self.assertEqual(self.read("kept/runs"), self.read("anew/runs"))

    def test_a_kept_hunt_is_not_mixed_with_another(self):
        self.hunt("--inputs", "both", "--keep", "kept")
        for words, said in ((["--rate", "6"], "another rate (1, and not 6)"), (["--seed", "2"], "another seed"), (["--turns", "5"], "another turns")):
            self.assertIn(said, self.hunt("--inputs", "both", "--keep", "kept", *words, due=2))
        self.write("both/00.expected", "other")
        self.assertIn("other inputs or expected outputs", self.hunt("--inputs", "both", "--keep", "kept", due=2))
        self.write("upper.c", UPPER.replace("32", "30 + 2"))
        self.assertIn("another program", self.hunt("--inputs", "both", "--keep", "kept", due=2))

    def test_nothing_of_the_progress_is_in_a_pipe(self):
        _, err = self.call("cbi-hunt", "upper.c", "--inputs", "both", "--runs", "50")
        self.assertEqual(err, "")

    def test_progress_is_on_a_terminal(self):
        status, said = on_terminal(["cbi-hunt", "upper.c", "--inputs", "both", "--rate", "2", "--runs", "60"], self.room)
        self.assertEqual(status, 0)
        self.assertRegex(said.decode(), r"\d+ of 60 runs, \d+ failed, 0 cut, 0:\d\d left")
        self.assertTrue(said.endswith(b"\r\x1b[K"))

    def test_where_no_run_failed_it_says_what_to_do(self):
        out = self.hunt("--inputs", "in puts", due=1)
        self.assertTrue(out.startswith("12 runs on 12 inputs: 0 failed, 12 succeeded\nNo run failed"), out)
        self.assertIn("--expect or --oracle", out)
        out = self.hunt("--inputs", "in puts", "--turns", "0", due=1)
        self.assertIn("12 neither (12 cut)", out)
        self.assertIn("12 runs were cut: allow more turns (--turns), or count them as failed (--hangs fail).", out)

    def test_where_all_runs_failed_it_says_what_to_do(self):
        for name in os.listdir(self.path("due")):
            self.write("crlf/" + name, self.read("due/" + name) + b"\r\n")
        out = self.hunt("--inputs", "in puts", "--expect", "crlf", due=1)
        self.assertIn("All runs that count failed", out)
        self.assertIn("The expected outputs have carriage returns", out)

    def test_where_no_fact_is_beyond_chance_it_says_what_to_do(self):
        """The program does the same with both inputs, and one is called wrong. At rate 1 each visit is looked at, and each run on an input is the same."""
        for name, text in (("few/1", "b"), ("few/2", "c"), ("wanted/1", "X"), ("wanted/2", "C"), ("not_b.py", "import sys\nsys.exit(open(sys.argv[1]).read() == 'b')\n")):
            self.write(name, text)
        for words, due in ((["--oracle", "python3 not_b.py"], [FEW, "More inputs that differ, also in little (--mutate N makes them)."]),
                           (["--expect", "wanted"], [FEW_EXPECTED, "More inputs that differ, also in little."]),
                           (["--expect", "wanted", "--rate", "1000", "--schemes", "returns"],
                            [FEW_EXPECTED, "More inputs that differ, also in little.", "A smaller rate (--rate 1 looks at every visit).",
                             "More runs (--runs): at --rate 1000 a fact that occurs once in an input is seen by 1 run of it with 0.1 %, and by 2995 with 95 % (--runs 5990).",
                             "All kinds of sites: leave --schemes out."])):
            out = self.hunt("--inputs", "few", *words, due=1)
            self.assertTrue(out.startswith("No fact is beyond chance.\nWhat may help:\n- "), out)
            self.assertEqual([line.replace("\n  ", " ") for line in re.findall(r"^- (.*(?:\n  .*)*)$", out, re.MULTILINE)], due)
            self.assertIn("\nsmallest failing input, 1 (1 byte): b\n", out)

    def test_crashes_fail_by_themselves(self):
        self.write("in puts/13 !", "a!")
        out = self.hunt("--inputs", "in puts", "--rate", "1", "--all")
        self.assertIn("failing inputs: 13 !\n", out)
        self.assertIn("\nPerhaps by chance, upper.c:7 in main: if (c == '!') was true\n", out)
        self.assertIn("      8 |             abort();                  <- runs only where this is true\n", out)
        self.assertIn("  1. line 6, main: c == 33 '!' after c = getchar()\n", out)

    def test_an_oracle_that_cannot_tell_and_one_that_is_none(self):
        self.write("unsure.py", "import sys\nsys.exit(125)\n")
        self.assertIn("0 failed, 0 succeeded, 12 neither", self.hunt("--inputs", "in puts", "--oracle", "python3 unsure.py", due=1))
        self.assertIn("the oracle no-such-command doesn't start", self.hunt("--inputs", "in puts", "--oracle", "no-such-command", due=2))
        self.write("dead.py", "import os\nos.kill(os.getpid(), 9)\n")
        self.assertIn("ended with status -9", self.hunt("--inputs", "in puts", "--oracle", "python3 dead.py", due=2))

    def test_bad_input_has_a_line_and_status_2(self):
        os.makedirs(self.path("none"))
        self.write("short", "A\n")
        os.remove(self.path("both/03.expected"))
        for words, said in ((["upper.c", "--inputs", "missing"], "missing: there is no such file or folder"), (["no.c", "--inputs", "both"], "no.c: there is no such file or folder"),
                            (["upper.c", "--inputs", "none"], "none has no files"), (["upper.c", "--inputs", "both"], "nothing says what the input 03 should give: there is no both/03.expected"),
                            (["upper.c", "--inputs", "in puts", "--expect", "none"], "nothing says what the input 00 bcd should give: there is no none/00 bcd, and 11 more inputs have none"),
                            (["upper.c", "--inputs", "lines", "--expect", "short"], "lines has 12 lines and short 1 line"), (["upper.c", "--inputs", "lines", "--expect", "due"], "--expect due is a folder"),
                            (["upper.c", "--inputs", "in puts", "--keep", "lines"], "--keep lines: File exists"), (["upper.c", "--inputs", "in puts", "--keep", "due"], "--keep due has other files"), (["upper.c", "--inputs", "in puts", "--cbi", "no-cbi"], "no-cbi isn't on the path"),
                            (["upper.c", "--inputs", "in puts", "--cbi", "./no-cbi"], "--cbi ./no-cbi: there is no such file"), (["upper.c", "--inputs", "in puts", "--cbi", "./judge.py"], "--cbi ./judge.py: it isn't executable"),
                            (["upper.c", "--inputs", "in puts", "--html", "no/page.html"], "--html no/page.html: there is no such folder"), (["upper.c", "--inputs", "in puts", "--html", "due"], "--html due: it is a folder")):
            out, err = self.call("cbi-hunt", *words, due=2)
            self.assertEqual(out, "")
            self.assertTrue(err.startswith("cbi-hunt: " + said), err)
            self.assertEqual(err.count("\n"), 1, err)
        _, err = self.call("cbi-hunt", "upper.c", "--inputs", "in puts", "--schemes", "all", due=2)
        self.assertTrue(err.startswith("upper.c: bad value of --schemes\n"), err)
        _, err = self.call("cbi-hunt", "upper.c", "--inputs", "both", "--expect", "due", "--oracle", "true", due=2)
        self.assertIn("not allowed with", err)


class Sample(Case):
    """More runs than a collection holds: with a smaller limit, in this process."""

    def marks(self, runs, sites=0, failing=()):
        return [collecting.Mark(run, sites, run in failing) for run in range(1, runs + 1)]

    def room_for(self, runs):
        self.addCleanup(setattr, collecting, "MOST_RUNS", collecting.MOST_RUNS)
        collecting.MOST_RUNS = runs

    def test_it_is_a_sample_only_where_it_must_be(self):
        self.assertIsNone(collecting.sample_of(self.marks(100000, 5), 1))
        sample = collecting.sample_of(self.marks(100001, 5), 1)
        self.assertEqual((len(sample.runs), sample.told), (100000, Told(0, 0, 100000, 100001, True)))
        self.assertIsNone(collecting.sample_of([collecting.Mark(1, 16777215, False), collecting.Mark(2, 1, False)], 1))
        self.assertEqual(len(collecting.sample_of([collecting.Mark(1, 16777215, False), collecting.Mark(2, 2, False)], 1).runs), 1)

    def test_it_is_even_and_stays_the_same(self):
        self.room_for(1000)
        marks = self.marks(10000)
        sample = collecting.sample_of(marks, 7).runs
        self.assertEqual(sample, collecting.sample_of(marks[::-1], 7).runs)
        self.assertNotEqual(sample, collecting.sample_of(marks, 8).runs)
        self.look_even(sample, 1000)
        fewer = collecting.sample_of(marks[:5000], 7).runs
        self.assertTrue({run for run in sample if run <= 5000} <= fewer)

    def look_even(self, sample, count):
        """There are so many runs of 10,000 in it, and of each tenth of these about as many."""
        tenths = [sum(1 for run in sample if (run - 1) // 1000 == part) for part in range(10)]
        self.assertEqual(sum(tenths), count)
        self.assertTrue(all(abs(tenth - count / 10) <= 0.4 * count / 10 for tenth in tenths), tenths)  # of 100 more than four deviations off

    def test_where_few_runs_failed_they_are_in_it(self):
        """A tenth of it is theirs, as far as there are so many; the others are drawn as ever."""
        self.room_for(1000)
        rare, more = set(range(100, 10000, 200)), set(range(20, 10000, 25))
        sample = collecting.sample_of(self.marks(10000, failing=rare), 7)
        self.assertTrue(rare <= sample.runs)
        self.assertEqual(sample.told, Told(50, 50, 950, 9950, False))
        self.look_even(sample.runs - rare, 950)
        sample = collecting.sample_of(self.marks(10000, failing=more), 7)
        self.assertEqual(sample.told, Told(100, 400, 900, 9600, False))
        self.assertEqual(len(sample.runs & more), 100)
        self.look_even(sample.runs - more, 900)
        one = collecting.sample_of(self.marks(10000, failing={9999}), 7)
        self.assertEqual((9999 in one.runs, one.told.failing, len(one.runs)), (True, 1, 1000))

    def test_where_many_runs_failed_it_is_even(self):
        self.room_for(1000)
        sample = collecting.sample_of(self.marks(10000, failing=set(range(1, 10001, 5))), 7)
        self.assertEqual(sample.runs, collecting.sample_of(self.marks(10000), 7).runs)
        self.assertEqual((sample.told.even, sample.told.failing + sample.told.others, sample.told.all_failing), (True, 1000, 2000))

    def test_site_lines_bound_it_also_where_few_runs_failed(self):
        """There is room for 100 runs by their site lines: a tenth of these is for the 50 that failed."""
        sample = collecting.sample_of(self.marks(1000, 167772, set(range(1, 51))), 1)
        self.assertEqual((sample.told, len(sample.runs)), (Told(10, 50, 90, 950, False), 100))

    def test_it_is_told_and_shares_are_weighed_back(self):
        """A hunt with room for 60 runs. 14 of 280 fail, of which a tenth of the room takes six."""
        self.write("upper.c", UPPER)
        self.write("lines", "".join(("!\n" if number % 20 == 0 else "bc\n") for number in range(280)))
        script = ("import sys\nsys.path.insert(0, sys.argv.pop(1))\nfrom cbi_hunt import collecting, hunting\ncollecting.MOST_RUNS = 60\nsys.exit(hunting.main())\n")
        self.write("small.py", script)
        out, _ = self.call(sys.executable, "small.py", looking.TOOLS, "upper.c", "--inputs", "lines", "--jobs", "1", "--keep", "kept")
        self.assertIn("\n280 runs on 280 inputs: 14 failed, 266 succeeded\n", out)
        self.assertIn("ranked are 6 of the 14 failing runs and 54 of the 266 others, drawn evenly by the seed 1; counts, bars and importance are of these, and how often runs fail is weighed back",
                      out.replace("\n", " "))
        self.assertEqual(self.read("kept/runs").count(b" label fail "), 6)
        self.assertEqual(self.read("kept/runs").count(b" label pass "), 54)
        self.assertTrue(out.startswith("1 bug explains all 6 failing runs (60 ranked runs).\n\nupper.c:7 in main: if (c == '!') was true\n"), out)
        self.assertIn("\nended by: a call of abort (trap 14, 6 runs)\n", out)
        every = self.call("cbi-show", "--hunt", "kept", "--all")[0]
        self.assertIn("     fails 5 % of the time when reached, 100 % when this is true\n", every)  # 14 of 280, where of those ranked 10 % fail
        self.assertIn("true in 6 failing runs and no successful runs; looked at in 6 failing and 54 successful", every)
        self.assertEqual(self.call("cbi-show", "--hunt", "kept")[0], out.split("page: ")[0])
        page = Page(self.read("kept/page.html").decode())
        self.assertIn([2, "How ranked runs ended"], page.headings)

    def test_shares_are_those_of_all_runs(self):
        """Of a hunt that was kept the words alone are changed: it is as if a thousand times as many runs had succeeded."""
        self.write("upper.c", UPPER)
        self.write("lines", "a!\n" + "bc\n" * 9)
        self.call("cbi-hunt", "upper.c", "--inputs", "lines", "--jobs", "1", "--keep", "kept")
        told = json.loads(self.read("kept/told.json"))
        self.assertIsNone(told["sample"])
        told["sample"] = [1, 1, 9, 9000, False]
        self.write("kept/told.json", json.dumps(told))
        out, _ = self.call("cbi-show", "--hunt", "kept", "--all")
        self.assertIn("     fails under 1 % of the time when reached, 100 % when this is true\n", out)
        told["policy"] = "relabel"
        self.write("kept/told.json", json.dumps(told))
        self.assertIn("     fails 10 % of the time when reached, 100 % when this is true\n", self.call("cbi-show", "--hunt", "kept", "--all")[0])

    def test_a_hunt_that_an_earlier_version_kept_is_shown(self):
        """It said nothing of a sample, of where it was made, or of how inputs can be opened; it had one example, and of runs without end a text."""
        self.write("upper.c", UPPER)
        self.write("lines", "a!\n" + "bc\n" * 9)
        self.call("cbi-hunt", "upper.c", "--inputs", "lines", "--jobs", "1", "--keep", "kept")
        told = json.loads(self.read("kept/told.json"))
        example = told.pop("examples")[0]
        for key in ("broke", "status"):
            del example[key]
        for key in ("sample", "folder", "files", "helps", "by_status"):
            del told[key]
        told.update(example={**example, "of_row": False}, hanging=[["line 6, main: if (c)", 2]])
        self.write("kept/told.json", json.dumps(told))
        out, _ = self.call("cbi-show", "--hunt", "kept", "--all")
        self.assertTrue(out.startswith("2 hanging runs were made again, and last seen at line 6, main: if (c) (2).\n"), out)
        self.assertIn("\nsmallest failing input, line01 (3 bytes): a!\\n\n", out)
        self.assertIn("     fails 10 % of the time when reached, 100 % when this is true\n", out)
        for form in ("html", "sarif", "quickfix"):
            self.call("cbi-show", "--hunt", "kept", "--format", form)

    def test_batches_are_what_is_missing(self):
        batch, missing = Batch, missing_batches
        self.assertEqual(missing([], 5, 2), [batch(1, 2), batch(3, 4), batch(5, 5)])
        self.assertEqual(missing([batch(1, 2), batch(4, 4)], 7, 2), [batch(3, 3), batch(5, 6), batch(7, 7)])
        self.assertEqual(missing([batch(1, 9)], 5, 2), [])
        self.assertEqual(missing([batch(3, 9)], 5, 2), [batch(1, 2)])

    def test_a_collection_of_the_sample(self):
        text = "cbi-collection 2\nprogram " + "0" * 64 + "\n" + "".join(f"run {run} ended 0 label pass work 0 0 0\nsite 0 1 0 0\n" for run in (2, 5, 9)) + "end\n"
        self.write("runs", text)
        self.assertEqual(collecting.sampled_copy(self.path("runs"), self.path("some"), {2, 9, 11}), 2)
        self.assertEqual(self.read("some").decode(), text.replace("run 5 ended 0 label pass work 0 0 0\nsite 0 1 0 0\n", ""))
