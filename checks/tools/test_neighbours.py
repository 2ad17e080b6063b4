"""Looks at neighbours of a failing input, as test_tools does at the rest. What they should write is worked out here, by the rule that the oracle has."""
import os
import random
import sys

import looking
from looking import Hunting, on_terminal

sys.path.insert(0, looking.TOOLS)
from cbi_hunt import changes, near  # noqa: E402
from cbi_hunt.inputs import Inputs  # noqa: E402
from cbi_hunt.words import arguments  # noqa: E402

PIECES = (
    (changes.lines_of, b"one\ntwo", [b"one\n", b"two"]),
    (changes.tokens_of, b"let x_1 = -42;\n", [b"let", b" ", b"x_1", b" ", b"=", b" ", b"-", b"42", b";", b"\n"]),
    (changes.tokens_of, b"\xff\t \x00", [b"\xff", b"\t ", b"\x00"]),
    (changes.bytes_of, b"a\n\xff", [b"a", b"\n", b"\xff"]),
)
BESIDE = ((b"42", [b"43", b"41", b"0", b"420"]), (b"0", [b"1", b"0", b"0", b"0"]), (b"a", [b"b", b"`"]), (b"\xff", [b"\x00", b"\xfe"]), (b"let", []), (b"9" * 19, []))


class Changes(Hunting):
    def test_pieces(self):
        for of, data, due in PIECES:
            self.assertEqual(of(data), due)
            self.assertEqual(b"".join(due), data)

    def test_what_is_near_a_piece(self):
        for piece, due in BESIDE:
            self.assertEqual(changes.beside(piece), due)

    def test_each_differs_and_none_is_known(self):
        known = {changes.digest_of(b"aa b")}
        found = [data for data, _ in zip(changes.neighbours(b"a b", [b"c"], known, random.Random(1)), range(300))]
        self.assertEqual(len(set(found)), 300)
        self.assertNotIn(b"a b", found)
        self.assertNotIn(b"aa b", found)
        for data in (b" b", b"ab", b"a ", b"a  b", b"a bb", b"b a", b"c b", b"b b", b"` b", b"a c", b"a bc"):
            self.assertIn(data, found[:150])
        again = [data for data, _ in zip(changes.neighbours(b"a b", [b"c"], known, random.Random(1)), range(300))]
        self.assertEqual(again, found)
        self.assertNotEqual([data for data, _ in zip(changes.neighbours(b"a b", [b"c"], known, random.Random(2)), range(300))], found)

    def test_lines_move_whole(self):
        found = [data for data, _ in zip(changes.neighbours(b"one\ntwo\nthree\n", [b"four\n"], set(), random.Random(1)), range(400))]
        for data in (b"two\nthree\n", b"one\none\ntwo\nthree\n", b"two\none\nthree\n", b"four\ntwo\nthree\n", b"one\nfour\ntwo\nthree\n"):
            self.assertIn(data, found)

    def test_it_ends_where_there_is_nothing_to_change_with(self):
        self.assertEqual(list(changes.neighbours(b"", [], set(), random.Random(1))), [])
        self.assertIn(b"a", list(changes.neighbours(b"", [b"a"], set(), random.Random(1))))


class Neighbours(Hunting):
    """One of seven inputs fails; of what is made around it an input fails where it has an `a`, and aborts where it has a `!`."""

    ORACLE = ["--oracle-shell", 'tr a-z A-Z <"$1" | cmp -s - "$2"']

    def setUp(self):
        super().setUp()
        for number, word in enumerate(("bcd", "xyz", "one abc two", "q", "zz", "mno", "klm")):
            self.write(f"few/{number}", word)

    def near(self, *words, due=0):
        return self.hunt("--inputs", "few", *self.ORACLE, *words, due=due)

    def test_evidence_grows_on_both_sides(self):
        """They are none of the hunt's own failing inputs, and aren't told among these."""
        out = self.near("--neighbours", "60", "--keep", "kept")
        made = [self.read(f"kept/neighbours/{name}") for name in sorted(os.listdir(self.path("kept/neighbours"))) if name != "made.json"]
        given = [self.read(f"few/{number}") for number in range(7)]
        failing = [data for data in made if b"a" in data]
        self.assertEqual((len(set(made)), [data for data in made if data in given or b"!" in data]), (60, []))
        self.assertEqual(made[0], b"a")
        self.assertTrue(10 <= len(failing) <= 50, failing)
        said = out.replace("\n", " ")
        self.assertTrue(said.startswith(f"1 bug explains the one failing input and all {len(failing)} failing neighbours (7 inputs, 60 neighbours).  upper.c:6 in main: c == 97 'a' after c = getchar() "), out)
        self.assertIn(f" Of these failing runs {len(failing)} are on neighbours of an input.", said)
        self.assertIn(f" 60 neighbours of the failing input 2 of 11 bytes, made smaller to 1 byte in 8 runs: {len(failing)} fail, {60 - len(failing)} don't", said)
        self.assertEqual(os.listdir(self.path("kept/failing")), ["2"])
        self.assertIn("\n7 runs on 7 inputs: 1 failed, 6 succeeded\nfailing inputs: 2, in kept/failing\n", out)
        self.assertIn("\nfailing inputs: kept/failing/2 (11 bytes)\n", out)
        self.assertIn("\nsmallest failing input, 2 (11 bytes): one abc two\n", out)

    def test_they_are_the_same_each_time(self):
        out = self.near("--neighbours", "10", "--keep", "kept", due=None)
        once = {name: self.read(f"kept/neighbours/{name}") for name in os.listdir(self.path("kept/neighbours"))}
        self.assertEqual(self.near("--neighbours", "10", "--keep", "kept", due=None), out)
        self.near("--neighbours", "10", "--jobs", "3", "--keep", "anew", due=None)
        self.assertEqual({name: self.read(f"anew/neighbours/{name}") for name in os.listdir(self.path("anew/neighbours"))}, once)
        self.assertIn("was begun with other inputs", self.near("--neighbours", "9", "--keep", "kept", due=2))

    def test_what_fails_otherwise_is_left_out_and_told(self):
        """The pieces of the other inputs have a `!`, with which a neighbour aborts; nothing says whether one with a `q`, `m`, `x` or `z` fails."""
        self.write("few/7", "!!!!\n!!!!\n")
        oracle = 'grep -q "[QMXZ]" "$2" && exit 125; tr a-z A-Z <"$1" | cmp -s - "$2"'
        out = self.hunt("--inputs", "few", "--oracle-shell", oracle, "--neighbours", "100", "--keep", "kept", due=None)
        said = [line for line in out.split("\n") if " neighbours of the failing input " in line]
        self.assertEqual(len(said), 1)
        # `!!!!` of ten bytes is the smallest failing input, which aborts: what fails by its output alone is what fails otherwise.
        self.assertRegex(said[0], r"^100 neighbours of the failing input 7 of 10 bytes, made smaller to 1 byte in \d+ runs: \d+ fail, \d+ don't; left out: \d+ that fail otherwise and \d+ of which nothing says whether they fail$")
        made = [self.read(f"kept/neighbours/{name}") for name in os.listdir(self.path("kept/neighbours")) if name != "made.json"]
        self.assertIn(f": {sum(b'!' in data for data in made)} fail, {sum(b'!' not in data for data in made)} don't;", said[0])
        self.assertEqual([data for data in made if b"!" not in data and set(data) & set(b"aqmxz")], [])

    def test_what_a_crash_judges_needs_no_oracle(self):
        self.write("few/7", "let us see! what this does")
        out = self.hunt("--inputs", "few", "--neighbours", "40", due=None)
        self.assertRegex(out, r"\n40 neighbours of the failing input 7 of 26 bytes, made smaller to 1 byte in \d+ runs: \d+ fail, \d+ don't\n")
        self.assertIn("\n\nupper.c:6 in main: c == 33 '!' after c = getchar()\n", out)

    def test_expected_files_judge_no_input_that_is_made(self):
        said = self.hunt("--inputs", "in puts", "--expect", "due", "--neighbours", "9", due=2)
        self.assertIn("cbi-hunt: --neighbours needs an oracle, or runs that crash: ", said)
        self.assertEqual(said.count("\n"), 1, said)
        self.assertIn("""--oracle-shell './works <"$1" | cmp -s - "$2"' judges every input""", said)

    def test_there_are_none_where_nothing_fails(self):
        os.remove(self.path("few/2"))
        self.assertIn("\nno neighbours were made, since no input fails\n", self.near("--neighbours", "9", due=1))

    def test_they_are_told_of_where_few_inputs_fail(self):
        said = "Only 1 input fails: --neighbours 200 makes and judges inputs near the smallest of them."
        self.assertIn(said, self.near(due=None))
        self.assertNotIn(said, self.near("--neighbours", "2", due=None))
        plain = Inputs(["a"], ["a"], None)
        for failing, due in ((0, 0), (1, 1), (9, 1), (10, 0)):
            self.assertEqual(len(near.suggestion(arguments(["a.c", "--inputs", "b"]), plain, failing)), due)
        self.assertIn("with an oracle in place of expected outputs, --neighbours 200", near.suggestion(arguments(["a.c", "--inputs", "b"]), Inputs(["a"], ["a"], ["a"]), 3)[0])

    def test_there_are_no_more_than_were_asked_for_and_no_more_than_there_are(self):
        self.write("one/a", "a")
        self.write("one/b", "b")
        out = self.hunt("--inputs", "one", *self.ORACLE, "--neighbours", "1", due=None)
        self.assertRegex(out, r"\n1 neighbour of the failing input a of 1 byte: \d fail, \d don't\n")

    def test_its_progress_is_on_a_terminal(self):
        _, said = on_terminal(["cbi-hunt", "upper.c", "--inputs", "few", *self.ORACLE, "--jobs", "1", "--neighbours", "3"], self.room)
        self.assertRegex(said.decode(), r"\rneighbours: \d+ of 3, of which \d+ fail\x1b\[K")
