"""Looks at exit statuses in hunts, as test_tools does at the rest: which runs they fail, what oracles see of them, and where such a run ended."""
import os
import re
import shutil
import sys
import unittest

import looking
from test_broken import Broken, line_of

sys.path.insert(0, looking.TOOLS)
import cbi_hunt.runs  # noqa: E402
from cbi_hunt import lists  # noqa: E402


class Statuses(Broken):
    TEXT = ("#include <stdio.h>\n#include <stdlib.h>\nvoid fail(int how)\n{\n    exit(how); /* exit */\n}\nint main(void)\n{\n    int c;\n    while ((c = getchar()) != EOF) {\n"
            "        if (c == '!')\n            fail(3); /* call */\n        if (c == '?')\n            fail(256);\n        putchar(c);\n    }\n    return 0;\n}\n")

    def setUp(self):
        super().setUp()
        self.write("status.c", self.TEXT)
        for number, word in enumerate(["ab", "c!d", "e?f", "gh", "!", "ij"]):
            self.write(f"words/{number}", word)

    def labels(self, *words, due=0):
        """The label and the end of each input's run in a hunt, and what it says."""
        shutil.rmtree(self.path("kept"), ignore_errors=True)
        out, _ = self.call("cbi-hunt", "status.c", "--inputs", "words", "--jobs", "1", "--keep", "kept", *words, due=due)
        return re.findall(r"(?m)^run \d+ (.*) label (\w+) ", self.read("kept/runs").decode()), out

    def test_by_default_a_status_is_kept_and_fails_nothing(self):
        runs, out = self.labels(due=1)
        self.assertEqual(runs, [("ended 0", "pass"), ("ended 3", "pass"), ("ended 256", "pass"), ("ended 0", "pass"), ("ended 3", "pass"), ("ended 0", "pass")])
        self.assertIn("6 runs on 6 inputs: 0 failed, 6 succeeded\n", out)
        self.assertIn("- 2 runs ended with an exit status other than 0: count such runs as failed (--status fail).", out)

    def test_a_status_other_than_0_can_fail(self):
        """Of 256 a process keeps the low byte, which is 0."""
        runs, out = self.labels("--status", "fail")
        self.assertEqual(runs, [("ended 0", "pass"), ("ended 3", "fail"), ("ended 256", "pass"), ("ended 0", "pass"), ("ended 3", "fail"), ("ended 0", "pass")])
        self.assertIn("\nended by: an exit status of 3 (2 runs)\n", out)
        lines = out.split("\n")
        self.assertIn("smallest failing input, 4 (1 byte): !", lines)
        self.assertIn("its exit status: 3", lines)
        self.assertIn(f"it ended with status 3 at: status.c:{line_of(self.TEXT, 'exit')} in fail: exit(how); /* exit */", lines)
        self.assertIn(f"called from: status.c:{line_of(self.TEXT, 'call')} in main", lines)
        self.assertIn("an exit status of 3", self.read("kept/page.html").decode())

    def test_what_is_expected_counts_too(self):
        for number, word in enumerate(["AB", "c", "e", "gh", "", "ij"]):
            self.write(f"due/{number}", word)
        runs, _ = self.labels("--status", "fail", "--expect", "due")
        self.assertEqual([label for _, label in runs], ["fail", "fail", "pass", "pass", "fail", "pass"])

    def test_an_oracle_sees_the_status(self):
        runs, _ = self.labels("--oracle-shell", 'test "$CBI_STATUS" -ne 3')
        self.assertEqual([label for _, label in runs], ["pass", "fail", "pass", "pass", "fail", "pass"])
        self.write("judge.py", "import os, sys\nprint(os.environ['CBI_STATUS'], open(sys.argv[2]).read(), file=open('seen', 'a'))\nassert len(sys.argv) == 3\n")
        self.labels("--oracle", f"{sys.executable} judge.py", due=1)
        self.assertEqual(sorted(set(self.read("seen").decode().split("\n"))), ["", "0 ab", "0 e", "0 gh", "0 ij", "3 ", "3 c"])

    def test_a_status_that_fails_needs_no_oracle(self):
        """Of those that end with 3 the oracle isn't asked, and so may say what it likes."""
        runs, _ = self.labels("--status", "fail", "--oracle-shell", 'test "$CBI_STATUS" -eq 0 || exit 125')
        self.assertEqual([label for _, label in runs], ["pass", "fail", "pass", "pass", "fail", "pass"])

    def test_a_run_by_itself_is_explained(self):
        self.write("input", "!")
        self.transform(self.TEXT, "plain")
        self.assertIn("\nIt ended with status 3.\nIt counts as successful, since its output decides and no --expect says what that should be; cbi-hunt --status fail counts such a run as failed.\n",
                      self.call("cbi-explain", "--", "cbi", "run", "--input", "input", "prog.cbi")[0])

    def test_a_hunt_goes_on_with_the_same_alone(self):
        self.labels("--status", "fail")
        _, err = self.call("cbi-hunt", "status.c", "--inputs", "words", "--keep", "kept", due=2)
        self.assertIn("another status (fail, and not ignore)", err)

    def test_runs_by_lists_and_by_single_calls_are_the_same(self):
        for words in (["--status", "fail"], ["--status", "fail", "--oracle-shell", 'test "$CBI_STATUS" -ne 0'], ["--oracle-shell", 'test "$CBI_STATUS" -ne 3']):
            with self.subTest(words):
                hunt = self.hunt(self.TEXT, "c!d", *words)
                made = []
                for kind in (cbi_hunt.runs.Runner, lists.ListRunner):
                    os.makedirs(self.path(kind.__name__), exist_ok=True)
                    kind(hunt.plan, self.path(kind.__name__), lambda: False).make_batch(cbi_hunt.runs.Batch(1, 3), lambda made: self.path("batch"))
                    made.append(self.read("batch"))
                self.assertEqual(made[0], made[1])
                self.assertEqual(made[0].count(b" ended 3 label fail "), 3)

    def test_a_batch_for_another_host_has_it_too(self):
        hunt = self.hunt(self.TEXT, "c!d", "--status", "fail")
        cbi_hunt.runs.pack(hunt.plan, cbi_hunt.runs.Batch(1, 2), self.path("packed"))
        self.call("python3", "packed")
        lists.ListRunner(hunt.plan, self.room, lambda: False).make_batch(cbi_hunt.runs.Batch(1, 2), lambda made: self.path("here"))
        self.assertEqual(self.read("packed.runs"), self.read("here"))
        self.assertEqual(self.read("here").count(b" ended 3 label fail "), 2)

    def test_an_input_is_made_smaller_as_long_as_its_status_stays(self):
        self.write("words/4", "klmno!")
        self.write("words/1", "klmno!pq")
        runs, out = self.labels("--status", "fail", "--minimize")
        self.assertIn("smallest failing input, made from 4 of 6 bytes in ", out)
        self.assertRegex(out, r"runs \(1 byte\): !\n")


if __name__ == "__main__":
    looking.CBI = os.path.abspath(sys.argv.pop(1))
    unittest.main()
