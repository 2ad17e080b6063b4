"""Looks at batches of runs that are made by `cbi runs`: what comes of one is what calls of `cbi bank` and `cbi run` make of it."""
import os
import sys

sys.dont_write_bytecode = True
import looking  # noqa: E402
from looking import TOOLS, Case, Hunting  # noqa: E402

sys.path.insert(0, TOOLS)
from cbi_hunt import lists  # noqa: E402
from cbi_hunt.lists import ListRunner, makes_lists, retold  # noqa: E402
from cbi_hunt.runs import Batch, Plan, Runner  # noqa: E402
from cbi_show.files import Fault  # noqa: E402

# It never ends at an h, and traps at a t: `1 / 0`.
HANGS = """\
#include <stdio.h>
int main(void)
{
    int c;
    while ((c = getchar()) != EOF) {
        while (c == 'h')
            c = c;
        putchar(c / (c != 't'));
    }
    return 0;
}
"""


class Listed(Hunting):
    """Batches of the program with a bug."""

    def setUp(self):
        super().setUp()
        if not makes_lists(looking.CBI):
            self.skipTest("this cbi has no `runs`")

    def plan(self, **more):
        names = sorted(os.listdir(self.path("in puts")))
        program = self.path("prog.cbi")
        if not os.path.exists(program):
            self.transform(self.read("upper.c").decode(), mode="sampled")
        plan = Plan(looking.CBI, program, 3, 7, 1000, None, names, [self.path("in puts", name) for name in names], None)
        return plan._replace(**more)

    def made(self, kind, plan, first=1, last=40, stopped=lambda: False):
        """The collection of a batch that such a runner makes."""
        folder = self.path(f"scratch {kind.__name__} {len(os.listdir(self.room))}")
        os.mkdir(folder)
        batch = kind(plan, folder, stopped).make_batch(Batch(first, last), lambda made: os.path.join(folder, "collected"))
        with open(os.path.join(folder, "collected"), "rb") as file:
            return batch, file.read()

    def assert_alike(self, plan, *numbers):
        here, there = self.made(ListRunner, plan, *numbers), self.made(Runner, plan, *numbers)
        self.assertEqual(here[0], there[0])
        self.assertEqual(here[1], there[1])
        return here[1]

    def test_a_batch_is_what_its_calls_make(self):
        self.assertEqual(self.assert_alike(self.plan()).count(b"\nrun "), 40)
        self.assert_alike(self.plan(rate=1), 30, 61)

    def test_so_is_one_with_expected_outputs(self):
        names = sorted(os.listdir(self.path("due")))
        text = self.assert_alike(self.plan(expected=[self.path("due", name) for name in names]))
        self.assertIn(b" label fail ", text)
        self.assertIn(b" label pass ", text)

    def test_so_is_one_that_an_oracle_judges(self):
        text = self.assert_alike(self.plan(oracle=[sys.executable, self.path("judge.py")]))
        self.assertIn(b" ended 0 label fail ", text)
        self.write("unsure.py", "import sys\nsys.exit(125 if 'z' in open(sys.argv[1]).read() else 0)\n")
        text = self.assert_alike(self.plan(oracle=[sys.executable, self.path("unsure.py")]))
        self.assertIn(b" ended 0 label none ", text)
        self.assertIn(b" ended 0 label pass ", text)

    def test_an_output_that_is_empty_and_wrong_counts_as_failed(self):
        self.write("in puts/99 nothing", "")
        self.write("never.py", "import sys\nsys.exit(1)\n")
        text = self.assert_alike(self.plan(oracle=[sys.executable, self.path("never.py")]))
        self.assertEqual(text.count(b" label fail "), 40)

    def test_so_is_one_whose_cut_runs_count_as_failed(self):
        program = self.transform(HANGS, mode="sampled")
        for number, word in enumerate(("ah", "b", "t")):
            self.write(f"words/{number}", word)
        inputs = [self.path("words", str(number)) for number in range(3)]
        text = self.assert_alike(self.plan(program=program, names=["0", "1", "2"], inputs=inputs, hangs=True))
        self.assertIn(b"cut turns label fail ", text)
        text = self.assert_alike(self.plan(program=program, names=["0", "1", "2"], inputs=inputs))
        self.assertIn(b"cut turns label none ", text)

    def test_so_is_one_of_parts(self):
        plan, parts = self.plan(), []
        for part in range(3):
            out, _ = self.call("cbi", "transform", "--mode", "sampled", "--part", f"{part}/3", "upper.c")
            parts.append(self.write(f"part{part}", out))
        self.assert_alike(plan._replace(parts=parts))

    def test_names_that_no_list_has_are_linked(self):
        odd = [self.write("odd\nname", "ab"), self.write("x" * 200, "q!")]
        self.assert_alike(self.plan(names=["odd", "long"], inputs=odd))

    def test_a_batch_that_is_stopped_has_the_runs_up_to_then(self):
        asked = []

        def stopped():
            asked.append(None)
            return len(asked) > 1
        batch, text = self.made(ListRunner, self.plan(), stopped=stopped)
        self.assertEqual(batch, Batch(1, lists.FIRST_LINES))
        self.assertEqual(text, self.made(Runner, self.plan(), last=batch.last)[1])

    def test_an_input_that_is_too_large_is_named(self):
        with open(self.path("in puts", "98 large"), "wb") as file:
            file.truncate(16777217)
        with self.assertRaisesRegex(Fault, r"^run 13, on the input 98 large: .*refusal 28 InputTooLarge"):
            self.made(ListRunner, self.plan())


class Retold(Case):
    TEXT = b"cbi-collection 2\nprogram 00\nrun 1 ended 0 label pass work 0 0 0\nsite 3 1 0 0\nrun 4 cut turns label none work 0 0 0\nsite 5 1 0 0\nend\n"

    def test_runs_are_left_out_with_their_sites(self):
        self.assertEqual(retold(self.TEXT, lambda run: run == 4, lambda run, told: None),
                         b"cbi-collection 2\nprogram 00\nrun 4 cut turns label none work 0 0 0\nsite 5 1 0 0\nend\n")

    def test_labels_are_put_anew(self):
        self.assertEqual(retold(self.TEXT, lambda run: True, lambda run, told: b"fail" if told == b"cut turns none" else None),
                         self.TEXT.replace(b"cut turns label none", b"cut turns label fail"))


class Without(Hunting):
    def test_an_executable_without_runs_is_done_with(self):
        """An older `cbi`, as hosts may have it: here one that refuses the command."""
        script = self.write("old/cbi", f'#!/bin/sh\n[ "$1" = runs ] && echo usage >&2 && exit 2\nexec "{looking.CBI}" "$@"\n')
        os.chmod(script, 0o755)
        self.assertFalse(makes_lists(script))
        self.assertIsInstance(lists.runner_of(Plan(script, "", 1, 1, 1, None, [], [], None), self.room, lambda: False), Runner)
        self.assertNotIsInstance(lists.runner_of(Plan(script, "", 1, 1, 1, None, [], [], None), self.room, lambda: False), ListRunner)
