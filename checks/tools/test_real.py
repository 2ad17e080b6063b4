"""Looks at real programs without their sources: at examples/bc, the random programs that it makes, and what it says where it can't begin; and at the bench of real bugs, by a small program of our own."""
import json
import os
import re
import shutil
import subprocess
import sys
import unittest.mock

import looking
from looking import EXAMPLES, TOP, Case

HERE = os.path.join(EXAMPLES, "bc")
BENCH = os.path.join(TOP, "bench")
sys.path.insert(0, BENCH)
import bc_beside  # noqa: E402
import pages  # noqa: E402
import real  # noqa: E402
import real_bug  # noqa: E402
import real_hunt  # noqa: E402
import real_native  # noqa: E402
import real_source  # noqa: E402
import real_table  # noqa: E402

# bc has room for 32 arrays and for 32 scalars at first, and for 32 more whenever one has no room; the numbers of arrays begin at 1, those of scalars at 5.
ARRAYS, SCALARS = 31, 59


def overruns(text):
    """Whether there is room for 96 scalars, and so 60 have a name, before the 32nd array has one, for which there is room for 64."""
    scalars, arrays = set(), set()
    for scalar, array in re.findall(r"\b(v[a-z]\d|[ijxy])\b|\b(t[a-z]\d)\[", text):
        scalars.add(scalar)
        arrays.add(array)
        if len(arrays - {""}) > ARRAYS:
            return len(scalars - {""}) > SCALARS
    return False


class RandomPrograms(Case):
    """examples/bc/programs.py. What its programs have is counted in their texts."""

    def made(self, folder, count, *seed):
        self.call(sys.executable, os.path.join(HERE, "programs.py"), str(count), folder, *seed)
        return [self.read(os.path.join(folder, name)).decode() for name in sorted(os.listdir(self.path(folder)))]

    def test_a_seed_says_which(self):
        one, two, other = self.made("one", 30, "7"), self.made("two", 30, "7"), self.made("other", 30, "8")
        self.assertEqual((len(one), one), (30, two))
        self.assertFalse(set(one) & set(other))
        self.assertEqual(self.made("first", 5), self.made("seed", 5, "1"))

    def test_some_fail_and_most_do_not(self):
        failing = sum(map(overruns, self.made("programs", 400)))
        self.assertTrue(20 <= failing <= 120, failing)

    def test_bc_takes_them(self):
        if not shutil.which("bc"):
            self.skipTest("there is no bc here")
        for text in self.made("programs", 40):
            done = subprocess.run(["bc", "-q"], input=text.encode(), stdout=subprocess.PIPE, stderr=subprocess.PIPE, timeout=60, check=False)
            self.assertEqual((done.returncode, done.stderr), (0, b""), text)

    def test_wrong_words(self):
        for words in ((), ("5",), ("many", "folder"), ("5", "folder", "seed"), ("5", "folder", "1", "2")):
            out, err = self.call(sys.executable, os.path.join(HERE, "programs.py"), *words, due=2)
            self.assertEqual((out, err), ("", "use: programs.py COUNT FOLDER [SEED]\n"))


class Beginnings(Case):
    """examples/bc/hunt where there is nothing to hunt."""

    def test_what_is_wanting_is_told(self):
        self.write("other/bc/main.c", "int main(void) { return 0; }\n")
        self.write("old/bc/storage.c", "/* another version */\n")
        rows = ((self.path("none"), f"{self.path('none')} has no bc/storage.c"), (self.path("other"), f"{self.path('other')} has no bc/storage.c"),
                (self.path("old"), "the source isn't that of bc 1.07.1"))
        for place, (source, why) in enumerate(rows):
            out, _ = self.call(os.path.join(HERE, "hunt"), "--source", source, "--work", f"work{place}")
            self.assertEqual(out.splitlines()[-1], f"examples/bc: skipped, since {why}")
        out, _ = self.call(os.path.join(HERE, "hunt"), "--source", self.path("none"), "--work", "work2")
        self.assertEqual(out, f"examples/bc: skipped, since {self.path('work2', 'bc')} is there, and isn't finished: remove {self.path('work2')}\n")

    def test_the_change_is_one_line(self):
        with open(os.path.join(HERE, "more_arrays.patch"), encoding="ascii") as file:
            rows = file.read().splitlines()
        changed = [row for row in rows if row[0] in "+-" and not row.startswith(("+++", "---"))]
        self.assertEqual(changed, ["-  for (; indx < a_count; indx++)", "+  for (; indx < v_count; indx++)"])


PATCH = """\
--- a/src/one.c
+++ b/src/one.c
@@ -10,5 +10,5 @@
 ten
 eleven
-twelve
+another twelve
 thirteen
 fourteen
@@ -30,4 +30,3 @@
 thirty
-thirty-one
 thirty-two
 thirty-three
--- a/src/two.c\t2020-01-01
+++ b/src/two.c\t2020-01-01
@@ -5,2 +4,4 @@
 five
+new
+newer
 six
"""


class BesideTheHunt(Case):
    """bench/bc_beside.py: how a stack of gdb is read, of a program that gcc builds."""

    def test_a_stack_of_gdb(self):
        if not shutil.which("gcc") or not shutil.which("gdb"):
            self.skipTest("there is no gcc or no gdb here")
        self.write("util.c", "#include <stdlib.h>\nvoid lookup(int n)\n{\n    if (n) abort();\n}\nint main(void)\n{\n    lookup(getenv(\"HOME\") != 0);\n    return 0;\n}\n")
        subprocess.run(["gcc", "-g", "-O0", "-o", self.path("program"), self.path("util.c")], check=True)
        stack = bc_beside.stack_of(self.path("program"), os.devnull)
        self.assertEqual([name for name, _ in stack[-2:]], ["lookup", "main"])
        self.assertTrue(bc_beside.own(stack).endswith(" from lookup (util.c:4) from main (util.c:8)"), stack)
        self.assertEqual(bc_beside.own([("lookup", "/src/util.c:4"), ("main", "/src/main.c:8")]), "lookup (util.c:4) from main (main.c:8)")

    def test_places_that_equals_share(self):
        scores = {1: 0.5, 2: 0.5, 3: 0.9, 4: 0.0}
        self.assertEqual([bc_beside.place_of(scores, line) for line in (3, 1, 2, 4, 5)], ["1", "2 to 3", "2 to 3", "4", "none"])


class RealRecords(Case):
    """The records of bench/real_bugs_*.py, their patches and generators."""

    def test_changed_lines(self):
        self.assertEqual(real_bug.lines_of(PATCH, 1), {"src/one.c": [12, 30, 31], "src/two.c": [5, 6]})
        self.assertEqual(real_bug.lines_of(PATCH, 0), {"src/one.c": [12, 31], "src/two.c": [5, 6]})

    def test_a_bug_is_a_few_lines_of_a_file_that_is_hunted(self):
        bugs = real_bug.every_bug()
        self.assertEqual(len({bug.name for bug in bugs}), len(bugs))
        for bug in bugs:
            changed = real_bug.changed_lines(bug)
            self.assertTrue(1 <= sum(map(len, changed.values())) <= 6, bug.name)
            hunted = {os.path.normpath(os.path.join(bug.program.folder, name)) for name in bug.program.files}
            self.assertTrue(set(changed) <= hunted or any(name.endswith(".h") for name in changed), (bug.name, changed))
            self.assertTrue(bug.mended and bug.what and bug.function, bug.name)

    def test_bugs_come_in_the_order_in_which_they_are_named(self):
        self.assertEqual([bug.name for bug in real.chosen_bugs(["yajl-nul", "dc", "dc-string-end"])], ["yajl-nul", "dc-register-pop", "dc-string-end"])
        self.assertEqual(real.chosen_bugs([]), real_bug.every_bug())
        with self.assertRaisesRegex(SystemExit, "there is no bug and no program dcc, yajl-null "):
            real.chosen_bugs(["yajl-null", "dc", "dcc"])

    def test_a_seed_says_which_inputs(self):
        for words in sorted({bug.inputs for bug in real_bug.every_bug() if ".." not in bug.inputs[0]}):
            made = []
            for folder, seed in (("one", "3"), ("two", "3"), ("other", "4")):
                self.write(f"{folder}/none", "")
                os.remove(self.path(folder, "none"))
                self.call(sys.executable, os.path.join(real_bug.FILES, words[0]), "9", folder, seed, *words[1:])
                made.append([self.read(os.path.join(folder, name)) for name in sorted(os.listdir(self.path(folder)))])
            self.assertEqual((len(made[0]), made[0]), (9, made[1]), words)
            self.assertNotEqual(made[0], made[2], words)
            shutil.rmtree(self.path("one"))
            shutil.rmtree(self.path("two"))
            shutil.rmtree(self.path("other"))

    def test_json_texts_are_json(self):
        for what, member in (("edits", "edits"), ("patch", "patch")):
            os.makedirs(self.path(what))
            self.call(sys.executable, os.path.join(real_bug.FILES, "json_texts.py"), "60", what, "1", what)
            for name in os.listdir(self.path(what)):
                self.assertIsInstance(json.loads(self.read(os.path.join(what, name)))[member], list)


# Says of each number whether it is odd; with the bug 7 and 17 are said to be even.
PARITY = """\
#include <stdio.h>

static int is_odd(int number)
{
    int left = number % 10;
    return left % 2 == 1;
}

int main(void)
{
    int number;
    while (scanf("%d", &number) == 1)
        puts(is_odd(number) ? "odd" : "even");
    return 0;
}
"""
PARITY_PATCH = """\
--- a/parity.c
+++ b/parity.c
@@ -3,7 +3,7 @@
 static int is_odd(int number)
 {
     int left = number % 10;
-    return left % 2 == 1;
+    return left % 2 == 1 && left != 7;
 }
 
 int main(void)
"""
NUMBERS = """\
import os, sys
for place in range(int(sys.argv[1])):
    with open(os.path.join(sys.argv[2], f"n{place:02}"), "w") as file:
        file.write(f"{place} {place + 1}\\n")
"""


class RealBench(Case):
    """bench/real.py. Of the numbers 0 to 40, two a file, those files fail that have 7, 17, 27 or 37: 6, 7, 16, 17, 26, 27, 36 and 37."""

    def bug(self, **more):
        program = real_bug.Program(name="parity", package="parity", version="1", files=("parity.c",))
        self.write("sources/parity/parity.c", PARITY)
        return real_bug.Bug(**{**dict(name="parity-seven", program=program, kind="wrong output", what="seven is even", mended="2", inputs=(self.write("numbers.py", NUMBERS),),
                                      function="is_odd", patch=self.write("seven.patch", PARITY_PATCH), count=40), **more})

    def test_a_bug_is_measured(self):
        if not shutil.which("gcc") or not shutil.which("gcov"):
            self.skipTest("there is no gcc or no gcov here")
        os.makedirs(self.path("work"))
        sources = real_source.Sources(self.path("work"), self.path("sources"))
        found = real.measured(self.bug(), sources, looking.CBI, 1)
        self.assertEqual((found["made"], found["failing"], found["runs"], found["failed"], found["lines"]), (40, 8, 40, 8, 15))
        # `left == 7` is true in the failing runs and in no other, and is seen where `left` is set, the line above.
        self.assertEqual(tuple(found["places"]["bugs"])[:3], (1, 1, None))
        self.assertEqual(tuple(found["first"]), ("parity.c", 5, "is_odd", "left == 7"))
        # All runs come to all of the seven lines that gcov counts (3, 5, 6, 9, 12, 13, 14), so each is as suspicious as any other: three are in the function, four near, one is the line.
        self.assertEqual(tuple(found["places"]["ochiai"]), (8 / 4, 8 / 5, 8 / 2, 7))
        self.assertEqual(tuple(found["sanitizer"])[:2], (0, 8))

    def test_few_others(self):
        if not shutil.which("gcc"):
            self.skipTest("there is no gcc here")
        os.makedirs(self.path("work"))
        bug = self.bug(others=5)
        sources = real_source.Sources(self.path("work"), self.path("sources"))
        made = real.made(bug, sources.mended(bug), sources.broken(bug), self.path("work"))
        self.assertEqual((made.total, made.failing), (40, [f"n{place:02}" for place in (6, 7, 16, 17, 26, 27, 36, 37)]))
        self.assertEqual(sorted(os.listdir(made.inputs)), [f"n{place:02}" for place in (0, 1, 2, 3, 4, 6, 7, 16, 17, 26, 27, 36, 37)])
        self.assertEqual(self.read(os.path.join(made.expected, "n06")), b"even\nodd\n")

    def test_a_run_that_does_not_end_is_ended(self):
        """By SIGTERM, with what it wrote until then; a run with a driver finds an empty folder."""
        self.write("wait.c", '#include <stdio.h>\n#include <unistd.h>\nint main(void)\n{\n    printf("%d\\n", fopen("left", "r") != 0);\n    fflush(stdout);\n'
                   '    fclose(fopen("left", "w"));\n    if (getchar() == \'w\') sleep(60);\n    return 3;\n}\n')
        if not shutil.which("gcc"):
            self.skipTest("there is no gcc here")
        subprocess.run(["gcc", "-o", self.path("wait"), self.path("wait.c")], check=True)
        program = real_bug.Program(name="wait", package="wait", version="1", files=("wait.c",), driver="wait.c")
        with unittest.mock.patch.object(real_native, "SECONDS", 0.5):
            self.assertEqual([real_native.output_of(self.path("wait"), program, self.write("given", text)) for text in ("x", "w", "x")], [(3, b"0\n"), (None, b"0\n"), (3, b"0\n")])

    def test_what_is_missing_is_told(self):
        self.write("sources/cjson/README", "")
        out, err = self.call(sys.executable, os.path.join(BENCH, "real.py"), "cjson-insert", "--work", "work", "--sources", "sources", "--executable", looking.CBI)
        self.assertEqual((out, err), ("cjson-insert: left out: the source of cjson has no cJSON.c\n", ""))
        os.rename(self.path("sources", "cjson"), self.path("sources", "other"))
        out, err = self.call(sys.executable, os.path.join(BENCH, "real.py"), "cjson-insert", "--work", "work", "--sources", "sources", "--executable", looking.CBI)
        self.assertEqual(out, f"cjson-insert: left out: {self.path('sources')} has neither cjson nor cjson_1.7.15-1+deb12u4.dsc\n")

    def test_a_source_package_wants_all_its_files(self):
        """A package as dpkg-source makes it; without one of its files it is none."""
        if not shutil.which("dpkg-source"):
            self.skipTest("there is no dpkg-source here")
        self.write("made/parity-1/parity.c", PARITY)
        self.write("made/parity-1/debian/control", "Source: parity\nMaintainer: Nobody <nobody@example.org>\nStandards-Version: 4.6.0\n\nPackage: parity\nArchitecture: any\nDescription: parity\n")
        self.write("made/parity-1/debian/changelog", "parity (1-1) unstable; urgency=low\n\n  * First.\n\n -- Nobody <nobody@example.org>  Mon, 01 Jan 2024 00:00:00 +0000\n")
        self.write("made/parity-1/debian/source/format", "3.0 (quilt)\n")
        subprocess.run(["tar", "caf", "parity_1.orig.tar.gz", "--exclude=debian", "parity-1"], cwd=self.path("made"), check=True)
        subprocess.run(["dpkg-source", "--build", "parity-1"], cwd=self.path("made"), stdout=subprocess.DEVNULL, stderr=subprocess.DEVNULL, check=True)
        program = real_bug.Program(name="parity", package="parity", version="1-1", files=("parity.c",))
        os.makedirs(self.path("work"))
        sources = real_source.Sources(self.path("work"), self.path("made"))
        self.assertEqual(self.read(os.path.join(sources.unpacked(program), "parity.c")).decode(), PARITY)
        os.remove(self.path("made", "parity_1-1.debian.tar.xz"))
        with self.assertRaisesRegex(real_source.Missing, "has neither parity nor parity_1-1.dsc"):
            sources.fetched(program)

    def test_the_table(self):
        self.assertEqual([real_table.place(value) for value in (None, 3.0, 2.5)], ["-", "3", "2.5"])
        self.assertEqual([real_table.share(*counts) for counts in ((0, 600), (2, 2000), (48, 400), (12, 300))], ["0 of 600", "2 of 2,000 (0.1 %)", "48 of 400 (12 %)", "12 of 300 (4 %)"])
        self.assertEqual(real_table.measured_by([{"cbi": "0.6.0", "executable": "ef82b664d9ec"}, {"cbi": "0.6.0", "executable": "ef82b664d9ec"}]), "Measured by cbi 0.6.0 (executable ef82b664).")
        self.assertEqual(real_table.sanitizer((0, 10, "", "", 0)), "nothing in 10 failing runs")
        self.assertEqual(real_table.sanitizer((9, 10, "heap-buffer-overflow", "storage.c:186 in more_arrays", 8)), "heap-buffer-overflow, storage.c:186 in more_arrays (8 of 10 failing runs)")

    def test_what_each_list_has_among_its_first_five(self):
        first = {"places": {"bugs": (1, 1, None, 1), "lines": (5, 6, 9, 10), "rank": (None, None, None, 1), "ochiai": (2.5, 5, 5.5, 80)}}
        second = {"places": {"bugs": (None, None, None, 0), "lines": (1, 1, 1, 10), "rank": (None, None, None, 0)}}
        self.assertEqual(real_table.summary_of([first, second]).splitlines()[2:],
                         ["| `bugs` | 1 of 2 | 1 of 2 | 0 of 2 |", "| `lines` | 2 of 2 | 1 of 2 | 1 of 2 |", "| rows of `rank` | 0 of 2 | 0 of 2 | 0 of 2 |", "| lines by Ochiai over gcov | 1 of 1 | 1 of 1 | 0 of 1 |"])

    def test_sizes_of_programs(self):
        """Two bugs of a program have one row."""
        dc = {"program": "dc", "version": "1", "lines": 2000, "tokens": 44842, "sites": 37125, "schemes": None, "report": (198000, 16777)}
        lemon = {"program": "lemon", "version": "3", "lines": 4000, "tokens": 81010, "sites": 7702, "schemes": "branches,returns", "report": (900, 100)}
        self.assertEqual(real_table.sizes_of([{**dc, "lines": 2001}, dc, lemon]).splitlines()[2:],
                         ["| dc 1 | 2,000 | 44,842 | 22,421 | 37,125 | 18,562 | 198 KB | 16,777 | 1,000 |", "| lemon 3 | 4,000 | 81,010 | 20,252 | 7,702 of branches,returns | 1,926 | 1 KB | 100 | 100,000 |"])

    def test_a_page_has_its_own_words_and_what_is_made(self):
        path = self.write("page.md", "Own.\n<!-- made: one -->\nold\n<!-- end -->\nMore.\n<!-- made: two -->\nkept\n<!-- end -->\n")
        pages.fill_in(path, {"one": "new\nrows", "three": "nowhere"})
        self.assertEqual(self.read("page.md").decode(), "Own.\n<!-- made: one -->\nnew\nrows\n<!-- end -->\nMore.\n<!-- made: two -->\nkept\n<!-- end -->\n")

    def test_a_report_on_average(self):
        path = self.write("runs", "cbi-collection 2\nprogram 0\nrun 1 ended 0 label pass work 1 1 1\nsite 3 1 0 0\nsite 5 1 0 0\nrun 2 trapped 6 label fail work 1 1 1\nsite 9 7 0 0\nsite 10 7 0 0\nend\n")
        self.assertEqual(real_hunt.report_of(path), (os.path.getsize(path) // 2, 2))

    def test_places(self):
        bug = self.bug()
        rows = [real_hunt.Row("other.c", 6, "main", ""), real_hunt.Row("parity.c", 12, "main", ""), real_hunt.Row("parity.c", 11, "main", ""),
                real_hunt.Row("parity.c", 5, "is_odd_2", ""), real_hunt.Row("parity.c", 6, "is_odd", "")]
        self.assertEqual(tuple(real_hunt.places_of(rows, bug)), (4, 3, 5, 5))
        self.assertEqual(tuple(real_hunt.places_of(rows[:2], bug)), (None, None, None, 2))
