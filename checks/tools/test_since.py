"""Looks at hunts of two versions, as test_tools does at the rest. Which inputs fail in which version follows from the rule beside each pair of programs."""
import json
import os
import re

from looking import Case

# It aborts at `!`.
OLD = """\
#include <stdio.h>
#include <stdlib.h>
int table[26];
int main(void)
{
    int c;
    int n = 0;
    while ((c = getchar()) != EOF) {
        if (c == '!')
            abort();
        if (c >= 'a' && c <= 'z') {
            table[c - 'a'] = table[c - 'a'] + 1;
            n = n + 1;
        }
    }
    printf("%d\\n", n);
    return 0;
}
"""
# It doesn't any more, but for a `!` behind `?`; and it goes out of bounds where there are more than five letters.
NEW = OLD.replace("if (c == '!')\n            abort();", "if (c == '?' && getchar() == '!')\n            abort();").replace(
    "            n = n + 1;\n", "            n = n + 1;\n            if (n > 5)\n                table[n * 5] = 1;\n")


def letters(word):
    return sum(character.islower() for character in word)


class Since(Case):
    """Forty words: old ones fail with `!`, new ones with six letters or with `?!`."""

    def setUp(self):
        super().setUp()
        self.words = ["abcdefghi"[:number % 9] + {3: "!", 7: "?!"}.get(number % 10, "") for number in range(40)]
        self.write("old.c", OLD)
        self.write("new.c", NEW)
        for number, word in enumerate(self.words):
            self.write(f"in/{number:02}", word + "\n")
        old = {number for number, word in enumerate(self.words) if "!" in word}
        new = {number for number, word in enumerate(self.words) if letters(word) > 5 or "?!" in word}
        self.alone, self.both, self.mended = sorted(new - old), sorted(new & old), sorted(old - new)

    def hunt(self, *words, due=0):
        out, err = self.call("cbi-hunt", "--inputs", "in", "--jobs", "1", *words, due=due)
        return err if due == 2 else out

    def headed(self, old, alone, both, mended, inputs=40):
        """How a hunt begins, in one line."""
        names = f" ({', '.join(f'{number:02}' for number in both[:3])}{f' and {len(both) - 3} more' if len(both) > 3 else ''})"
        return (f"Since {old}: of {inputs} inputs {len(alone) or 'none'} fail in the new version alone, {len(both)} in both versions and set aside{names}"
                f"{f', {len(mended)} in the old one alone (mended)' if mended else ''}. ")

    def test_a_regression_among_old_failures_is_hunted_alone(self):
        """Both versions fail where `?!` stands, and where the old one failed with six letters the new one fails too."""
        self.assertEqual((len(self.alone), len(self.both), len(self.mended)), (9, 5, 3), "by hand, of the forty words")
        out = self.hunt("new.c", "--since", "old.c", "--html", "page.html", "--keep", "kept")
        self.assertTrue(" ".join(out.split()).startswith(self.headed("old.c", self.alone, self.both, self.mended) + "1 bug explains all 9 failing inputs (35 inputs). new.c:14 in main: if (n > 5) was true "), out)
        self.assertIn("\nended by: an out-of-bounds access (trap 6, 9 runs)\nchanged since old.c: lines 9, 14 to 15\n", out)
        self.assertNotIn("trap 14", out)
        self.assertIn("\n40 runs on 40 inputs: 9 failed, 26 succeeded, 5 neither\n", out)
        self.assertEqual(sorted(os.listdir(self.path("kept/failing"))), [f"{number:02}" for number in self.alone])
        page = self.read("page.html").decode()
        self.assertIn("Since old.c: of 40 inputs 9 fail in the new version alone, 5 in both versions and set aside", page)
        self.of_kept(out)

    def of_kept(self, out):
        """What a hunt that is kept says again, as text and as SARIF; and what it goes on with."""
        self.assertTrue(out.startswith(self.call("cbi-show", "--hunt", "kept")[0].split("\nsmallest failing input")[0]))
        run = json.loads(self.call("cbi-show", "--hunt", "kept", "--format", "sarif")[0])["runs"][0]
        self.assertEqual({key: run["properties"]["since"][key] for key in ("old", "alone", "both", "mended", "inputs")}, {"old": "old.c", "alone": 9, "both": 5, "mended": 3, "inputs": 40})
        self.assertTrue(run["results"][0]["message"]["text"].startswith("Fails in the new version alone, not in old.c. if (n > 5) was true."), run["results"][0]["message"])
        again = self.hunt("new.c", "--since", "old.c", "--keep", "kept")
        self.assertEqual(again.split("\nsmallest failing input")[0], out.split("\nsmallest failing input")[0])
        self.write("old.c", OLD.replace("n = 0", "n = 1"))
        self.assertRegex(self.hunt("new.c", "--since", "old.c", "--keep", "kept", due=2), "^cbi-hunt: the hunt in .*/kept/since was begun with another program")
        self.assertRegex(self.hunt("new.c", "--keep", "kept", due=2), "was begun with another old version, or none")

    def test_expected_outputs_judge_both(self):
        """The old version counts digits too, where it should not, and the new one stops at a blank: of the words with one, each old failure has a digit."""
        counts = "#include <stdio.h>\nint main(void)\n{\n    int c;\n    int n = 0;\n    while ((c = getchar()) != EOF) {\n        if (%s)\n            n = n + 1;\n    }\n    printf(\"%%d\\n\", n);\n    return 0;\n}\n"
        self.write("old.c", counts % "c >= 'a' || c >= '0' && c <= '9'")
        self.write("new.c", (counts % "c >= 'a' || c >= '0' && c <= '9'").replace("        if (c >= 'a'", "        if (c == ' ')\n            break;\n        if (c >= 'a'"))
        for number in range(40):
            word = "ab" * (number % 3) + ("7" if number % 8 == 0 else "") + (" cd" if number % 4 == 0 else "")
            self.write(f"in/{number:02}", word)
            self.write(f"in/{number:02}.expected", f"{letters(word)}\n")
        both = [number for number in range(40) if number % 8 == 0]
        alone = [number for number in range(40) if number % 8 == 4]
        # Where one digit more and two letters less are counted the output is wrong by one as well.
        out = self.hunt("new.c", "--since", "old.c")
        self.assertTrue(" ".join(out.split()).startswith(self.headed("old.c", alone, both, []) + "1 bug explains all 5 failing inputs (35 inputs). new.c:"), out)
        self.assertRegex(out, r"\nnew\.c:(6 in main: c == 32 ' ' after c = getchar\(\)|7 in main: if \(c == ' '\) was true)\n")
        self.assertIn("\nchanged since old.c: lines 7 to 8\n", out)

    def test_an_output_that_changed_may_be_a_failure(self):
        """The new version writes the number of letters below 8 alone; without --changed nothing fails in it alone."""
        self.write("new.c", OLD.replace('printf("%d\\n", n);', 'if (n > 7)\n        n = 7;\n    printf("%d\\n", n);'))
        changed = [number for number, word in enumerate(self.words) if letters(word) > 7 and "!" not in word]
        both = [number for number, word in enumerate(self.words) if "!" in word]
        out = self.hunt("new.c", "--since", "old.c", due=1)
        self.assertTrue(" ".join(out.split()).startswith(self.headed("old.c", [], both, []) + "40 runs on 40 inputs: 0 failed, 32 succeeded, 8 neither No input fails in the new version alone, so there is nothing to compare. "), out)
        self.assertIn("(--changed fail)", out)
        out = self.hunt("new.c", "--since", "old.c", "--changed", "fail", "--keep", "kept", due=None)
        self.assertTrue(" ".join(out.split()).startswith(self.headed("old.c", changed, both, [])), out)
        self.assertIn("new.c:16 in main: if (n > 7) was true", out)
        self.assertRegex(out, r"\nline 1 of its output: 7\\n\nline 1 that was expected: 8\\n\n")
        again = re.search("(?m)^the run again: (.*)$", out)[1]
        self.assertIn("It counts as failing: its output wasn't the expected one.", self.call("bash", "-c", again)[0])

    def test_a_smaller_input_fails_in_the_new_one_alone(self):
        """Six letters are the least; what is taken out never leaves a `!`, on which the old one fails. And of outputs that changed: eight letters."""
        words = ["--since", "old.c", "--minimize"]
        self.assertRegex(self.hunt("new.c", *words), r"(?m)^smallest failing input, made from 06 of 7 bytes in \d+ runs \(6 bytes\): abcdef$")
        self.write("new.c", OLD.replace('printf("%d\\n", n);', 'if (n > 7)\n        n = 7;\n    printf("%d\\n", n);'))
        self.assertRegex(self.hunt("new.c", *words, "--changed", "fail", due=None), r"(?m)^smallest failing input, made from 08 of 9 bytes in \d+ runs \(8 bytes\): abcdefgh$")

    def test_what_the_old_one_crashed_on_is_mended_whatever_it_wrote(self):
        self.write("new.c", OLD.replace("abort();", "n = n + 100;"))
        both_ways = [number for number, word in enumerate(self.words) if "!" in word]
        out = self.hunt("new.c", "--since", "old.c", "--changed", "fail", due=1)
        self.assertTrue(" ".join(out.split()).startswith(f"Since old.c: of 40 inputs none fail in the new version alone, none in both versions, {len(both_ways)} in the old one alone (mended). "), out)

    def test_several_files_have_their_old_versions_in_a_folder(self):
        """With its own header: the limit is 26 in the old one, and 5 in the new one."""
        main = '#include <stdio.h>\n#include "limit.h"\nvoid put(int c);\nint main(void)\n{\n    int c;\n    while ((c = getchar()) != EOF)\n        put(c);\n    return 0;\n}\n'
        put = '#include <stdlib.h>\n#include "limit.h"\nint n;\nvoid put(int c)\n{\n    if (c >= \'a\')\n        n = n + 1;\n    if (n > LIMIT)\n        abort();\n}\n'
        for folder, limit in (("", 5), ("before/", 26)):
            self.write(folder + "src/main.c", main)
            self.write(folder + "src/put.c", put)
            self.write(folder + "include/limit.h", f"#define LIMIT {limit}\n")
        out = self.hunt("src/main.c", "src/put.c", "--since", "before", "--", "-I", "include")
        self.assertTrue(" ".join(out.split()).startswith(f"Since before: of 40 inputs {sum(letters(word) > 5 for word in self.words)} fail in the new version alone, none in both versions. "), out)
        self.assertIn("src/put.c:8 in put: if (n > LIMIT) was true", out)

    def test_what_is_no_old_version_is_told(self):
        os.mkdir(self.path("empty"))
        for words, said in ((["new.c", "--since", "new.c"], "--since new.c: the old version is the same file as the new one"), (["new.c", "--since", "."], "the old version is the same file"),
                            (["new.c", "--since", "gone.c"], "gone.c: there is no such file or folder"), (["new.c", "--since", "empty"], "--since empty: there is no new.c in it"),
                            (["new.c", "old.c", "--since", "old.c"], "of several files it is the folder with their old versions"), (["new.c", "--changed", "fail"], "--changed fail asks for --since")):
            err = self.hunt(*words, due=2)
            self.assertIn(said, err)
            self.assertEqual(err.count("\n"), 1, err)
