"""Looks at what a hunt is given and what it makes of it, as test_tools does at the rest: oracles, folders of inputs, smaller inputs and more of them."""
import itertools
import os
import random
import sys

import looking
from looking import Hunting, on_terminal

sys.path.insert(0, looking.TOOLS)
from cbi_hunt import mutants, oracles, smaller  # noqa: E402
from cbi_show import files, told  # noqa: E402
from cbi_hunt.counts import Told  # noqa: E402
from cbi_hunt.words import arguments  # noqa: E402


class Oracles(Hunting):
    def test_one_that_takes_too_long_is_ended(self):
        self.write("slow.sh", "sleep 30 &\nsleep 30\n")
        self.assertIn("the oracle sh took more than 1 s on 00 bcd: --oracle-timeout allows it more", self.hunt("--inputs", "in puts", "--oracle", "sh slow.sh", "--oracle-timeout", "1", due=2))

    def test_one_may_take_ten_seconds_unless_it_is_said(self):
        for words, due in ((["--inputs", "in puts"], 10), (["--inputs", "in puts", "--oracle-timeout", "3"], 3)):
            self.assertEqual(arguments(["upper.c", *words]).oracle_timeout, due)
        self.assertIn("--oracle-timeout SECONDS how long the oracle may take for a run (10)", " ".join(self.call("cbi-hunt", "--help")[0].split()))

    def test_one_that_a_shell_reads(self):
        self.write("keep", "")
        out = self.hunt("--inputs", "in puts", "--oracle-shell", 'tr a-z A-Z <"$1" | cmp -s - "$2"', "--rate", "1")
        self.assertIn("12 runs on 12 inputs: 3 failed, 9 succeeded\nfailing inputs: 02 abc, 04 zza, 08 caa\n", out)

    def test_signs_of_a_shell_are_told(self):
        for words, sign in (("a | b", "|"), ("a; b", ";"), ("a $1", "$"), ("a '|' \"$x\"", "$"), ("a `b`", "`"), ("a >b", ">"), ("a && b", "&"),
                            ("a '|;$'", None), ('a "|;"', None), ("a \\| b", None), ("python3 judge.py", None)):
            self.assertEqual(oracles.asks_for_shell(words), sign, words)
        self.assertIn("--oracle has |, which a shell alone heeds: say --oracle-shell", self.hunt("--inputs", "in puts", "--oracle", "cat | wc", due=2))

    def test_one_that_is_ended_by_a_signal_is_told_with_the_name_of_the_input(self):
        self.write("killed.sh", "echo no table >&2\nkill -SEGV $$\n")
        said = self.hunt("--inputs", "lines", "--oracle", "sh killed.sh", due=2)
        self.assertIn("cbi-hunt: the oracle sh ended with status -11 on line01: 0 says right, 1 to 124 wrong, and 125 neither; it wrote no table\n", said)

    def test_one_that_crashes_is_told_with_what_it_wrote(self):
        self.write("broken.py", "import no_such_module_here\n")
        out = self.hunt("--inputs", "in puts", "--oracle", "python3 broken.py", due=1)
        self.assertIn("\n- The oracle python3 calls all of them wrong, and wrote to err: ModuleNotFoundError: No module named 'no_such_module_here'\n", out)

    def test_expected_files_that_differ_in_the_last_newline_are_told(self):
        said = "differ in the last newline alone: on 00 bcd one more is expected than the program writes"
        for name in os.listdir(self.path("due")):
            self.write("newlines/" + name, self.read("due/" + name) + b"\n")
        out = self.hunt("--inputs", "in puts", "--expect", "newlines", due=1)
        self.assertIn(f" What may help:\n- 9 of 12 failing inputs that were looked at {said}.\n- Give inputs on which the program does as it should.\n", out)
        self.assertEqual(out.count("newline "), 1, out)
        for name in ("09 fgh", "10 w", "11 rst"):
            self.write("newlines/" + name, self.read("due/" + name))
        out = self.hunt("--inputs", "in puts", "--expect", "newlines", due=None)
        self.assertIn(f"\n6 of 9 failing inputs that were looked at {said}\n", out)
        self.assertEqual(out.count("newline "), 1, out)


FIRST = """\
#include <stdio.h>
#include <stdlib.h>
int main(void)
{
    int c, q = 0;
    int first = getchar();
    while ((c = getchar()) != EOF)
        if (c == 'q')
            q = 1;
    if (first == 'z')
        abort();
    if (first == 'a') {
        if (q)
            abort();
        return q / q;
    }
    return 0;
}
"""


class Smaller(Hunting):
    def test_as_few_pieces_as_still_fail(self):
        asked = []

        def fails(data):
            asked.append(data)
            return b"x" in data and b"y" in data
        self.assertEqual(smaller.smallest([bytes([byte]) for byte in b"abxcdefyg"], fails), [b"x", b"y"])
        self.assertEqual(smaller.smallest([b"a", b"b"], lambda data: True), [])
        self.assertEqual(smaller.smallest([b"a", b"b"], lambda data: False), [b"a", b"b"])
        self.assertLess(len(asked), 60)

    def test_lines_go_first_and_then_bytes(self):
        """Each step is a run on bytes that weren't tried before; up to the one line that is wanted all of them are whole lines."""
        asked = []

        class Asking(smaller.Smaller):
            def fails_now(self, data):
                asked.append(data)
                return b"x" in data
        lines = [b"one\n", b"two x\n", b"three\n", b"four\n"]
        made = Asking(None, self.room, None, Told())
        self.assertEqual(made.of(b"".join(lines)), b"x")
        self.assertEqual((made.steps, len(set(asked))), (len(asked), len(asked)))
        by_lines = {b"".join(kept) for size in range(5) for kept in itertools.combinations(lines, size)}
        alone = asked.index(lines[1])
        self.assertEqual([data for data in asked[:alone] if data not in by_lines], [])
        self.assertEqual([data for data in asked[alone + 1:] if len(data) >= len(lines[1])], [])

    def test_it_fails_alike_with_the_fact_of_the_first_row(self):
        """What begins with `a` aborts where it has a `q`, and else divides by zero; what begins with `z` aborts too. Of `azq` the run on `zq` ends by the same trap without
        the fact, and that on `a` has the fact and another trap."""
        self.write("first.c", FIRST)
        for name in ("azq", "abqc", "abqd", "abqe", "abqf", "zbcde", "zbcdf", "bcq", "cdq", "dez", "efz", "fgh", "ghi", "hij", "ijk"):
            self.write(f"words/{name}", name)
        out, _ = self.call("cbi-hunt", "first.c", "--inputs", "words", "--jobs", "1", "--minimize")
        self.assertIn("\nPerhaps by chance, first.c:6 in main: first <= 97 'a' after first = getchar()\nTrue in 5 of the 7 failing runs that came there, and in none of the 8 others that did. ", out)
        self.assertRegex(out, r"\nsmallest failing input, made from azq of 3 bytes in \d+ runs \(2 bytes\): aq\n")

    def test_its_progress_is_on_a_terminal(self):
        self.write("in puts/13 !", "let us see! what this does\n")
        _, said = on_terminal(["cbi-hunt", "upper.c", "--inputs", "in puts", "--jobs", "1", "--minimize"], self.room)
        self.assertRegex(said.decode(), r"\rsmaller: \d+ bytes? after \d+ runs?\x1b\[K")

    def test_a_trap_is_made_smaller(self):
        self.write("in puts/13 !", "first line\nlet us see! what this does\nlast\n")
        out = self.hunt("--inputs", "in puts", "--rate", "1", "--minimize")
        self.assertRegex(out, r"\nsmallest failing input, made from 13 ! of 43 bytes in \d+ runs \(1 byte\): !\nits output: nothing\n"
                              r"it stopped \(a call of abort\) at: upper.c:8 in main: abort\(\);\njust before: upper.c:7 in main: if \(c == '!'\)\nthe run again: printf '!' >input; ")
        out = self.hunt("--inputs", "in puts", "--rate", "1", "--minimize", "--keep", "kept")
        self.assertEqual(self.read("kept/smallest"), b"!")
        self.assertIn("\nthe run again: cbi-explain -- cbi run --input kept/smallest kept/plain\n", out)

    def test_what_an_oracle_calls_wrong_is_made_smaller(self):
        self.write("in puts/02 abc", "one and\ntwo abc\n")
        self.write("in puts/04 zza", "one and\ntwo zza\n")
        self.write("in puts/08 caa", "one and\ntwo caa\n")
        out = self.hunt("--inputs", "in puts", "--oracle", "python3 judge.py", "--rate", "1", "--minimize")
        self.assertRegex(out, r"\nsmallest failing input, made from 02 abc of 16 bytes in \d+ runs \(1 byte\): a\nits output ended with: a\n")

    def test_it_asks_for_an_oracle_where_nothing_says_what_is_due(self):
        out, err = self.call("cbi-hunt", "upper.c", "--inputs", "in puts", "--expect", "due", "--rate", "1", "--minimize")
        self.assertIn("cbi-hunt: --minimize needs an oracle where runs fail by wrong output", err)
        self.assertIn("smallest failing input, 02 abc (3 bytes): abc\n", out)


class Mutants(Hunting):
    def test_each_sees_something_new(self):
        self.write("few/1", "b\n")
        self.write("few/2", "q")
        words = ["--inputs", "few", "--oracle", "python3 judge.py", "--rate", "1", "--mutate", "6"]
        out = self.hunt(*words, "--keep", "kept", due=None)
        self.assertRegex(out, r"\n6 inputs more made from 2, in \d+ tries\n")
        names = [f"made{number}" for number in range(1, 7)]
        self.assertEqual(sorted(os.listdir(self.path("kept/made"))), ["made.json", *names])
        self.write("full", self.call("cbi", "transform", "--mode", "full", "upper.c")[0])
        seen = set()
        for name in ["few/1", "few/2"] + [f"kept/made/{name}" for name in names]:
            self.call("bash", "-c", f"cbi run --input {name} --report report full >output")
            sites = files.parse_report("report", self.read("report").decode()).run.sites
            seen.add(frozenset((site, tuple(count > 0 for count in counters)) for site, counters in sites.items()))
        self.assertEqual(len(seen), 8)
        before = [self.read(f"kept/made/{name}") for name in names]
        self.assertIn("6 inputs more made from 2, as an earlier call made them\n", self.hunt(*words, "--keep", "kept", due=None))
        self.hunt(*words, "--keep", "anew", "--jobs", "3", due=None)
        self.assertEqual([self.read(f"anew/made/{name}") for name in names], before)

    def test_nothing_says_what_is_due_for_them(self):
        self.assertIn("--mutate asks for an oracle, or for runs that trap", self.hunt("--inputs", "both", "--mutate", "5", due=2))

    def test_its_progress_is_on_a_terminal(self):
        self.write("few/1", "b")
        _, said = on_terminal(["cbi-hunt", "upper.c", "--inputs", "few", "--mutate", "2", "--jobs", "1"], self.room)
        self.assertRegex(said.decode(), r"\rinputs: \d of 2 made in 64 tries\x1b\[K")

    def test_what_sees_nothing_new_is_told(self):
        self.write("no.c", "int main(void) { return 0; }\n")
        self.write("few/1", "b")
        out, _ = self.call("cbi-hunt", "no.c", "--inputs", "few", "--mutate", "3", due=1)
        self.assertIn("no inputs more made from 1, in 128 tries; 3 were asked for, and no more saw anything new\n", out)

    def test_changes_are_by_lines_and_bytes(self):
        chance, found = random.Random(1), set()
        for _ in range(300):
            found.add(mutants.changed(b"one\ntwo\n", b"three\n", chance))
        for data in (b"two\n", b"one\n", b"one\none\ntwo\n", b"two\none\n", b"one\nthree\ntwo\n"):
            self.assertIn(data, found)
        self.assertTrue(any(data.count(b"\n") == 2 and len(data) == 7 for data in found))
        self.assertLessEqual(max(map(len, found)), mutants.MOST_BYTES)


class Folders(Hunting):
    def test_folders_of_a_fuzzer_are_taken_as_they_are(self):
        for name, text in (("queue/id:000000,time:0,orig:a", "b"), ("queue/id:000001,src:000000", "q"), ("queue/.state/deterministic_done/x", ""), ("crashes/id:000000,sig:06", "!"),
                           ("crashes/README.txt", "Command line used"), ("fuzzer_stats", "start_time"), ("plot_data", "1"), ("cmdline", "a"), (".synced/other", "")):
            self.write("out/default/" + name, text)
        out = self.hunt("--inputs", "out", "--rate", "1", "--keep", "kept")
        self.assertIn("3 runs on 3 inputs: 1 failed, 2 succeeded\nfailing inputs: default/crashes/id:000000, in kept/failing\n\n", out)
        self.assertEqual(self.read("kept/failing/default/crashes/id:000000,sig:06"), b"!")
        self.assertIn("smallest failing input, default/crashes/id:000000,sig:06 (1 byte): !\n", out)
        out = self.hunt("--inputs", "out/default/queue", due=1)
        self.assertIn("2 runs on 2 inputs: 0 failed, 2 succeeded\nNo run failed", out)
        self.assertIn("\n- Name the folder above (out/default): its crashes has inputs that AFL++ saw crash.\n", out)
        out = self.hunt("--inputs", "out/default/crashes", due=1)
        self.assertIn("1 run on 1 input: 1 failed, 0 succeeded\n", out)
        self.assertIn("\n- Name the folder above (out/default): its queue has inputs that AFL++ saw end.\n", out)

    def test_names_of_a_fuzzer_are_short_where_several_stand_together(self):
        for name, due in (("default/crashes/id:000005,sig:11,src:000000,time:207", "default/crashes/id:000005"), ("id:000005,orig:a", "id:000005"), ("grid:1,2", "grid:1,2"), ("id:7", "id:7"), ("a/b", "a/b")):
            self.assertEqual(told.short_name(name), due)

    def test_subfolders_are_taken_and_hidden_files_told(self):
        for number, word in enumerate(("bcd", "abc", "q")):
            self.write(f"deep/{number}/one", word)
            self.write(f"deep/{number}/one.expected", word.upper())
        self.write("deep/.hidden", "!")
        self.write("deep/0/.DS_Store", "!")
        out = self.hunt("--inputs", "deep", "--rate", "1")
        self.assertIn("3 runs on 3 inputs: 1 failed, 2 succeeded\nfailing inputs: 1/one\nnot taken, since hidden: .hidden, 0/.DS_Store\n", out)
