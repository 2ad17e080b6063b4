"""Looks at hunts of texts that are ported first, as test_tools does at the rest: files and lines are a person's."""
import json
import os
import random
import re
import shutil
import sys

import looking
from looking import EXAMPLES, Case, Hunting, call
from test_pages import sound

sys.path.insert(0, looking.TOOLS)
import cbi_show.rows  # noqa: E402
import cbi_show.text  # noqa: E402
import cbi_show.where  # noqa: E402
from cbi_show import files  # noqa: E402

MAIN = """\
#include <stdio.h>
#include "check.h"
typedef unsigned char byte;
int main(void)
{
    int c;
    byte last = 0;
    while ((c = getchar()) != EOF) {
        switch (check(c)) {
        case '%': puts("per cent"); break;
        default: putchar(c);
        }
        last = c;
    }
    return last > 200;
}
"""
CHECK = """\
#include <stdlib.h>
#include "check.h"
int check(int c)
{
    if (c == '!')
        abort();
    return c;
}
"""
LINES = """\
cbi-lines 1
files 2
main.c
check.c
functions 1
cbi_strlen
lines 4
1 3
2 5
added
1 9
end
"""


class Ported(Hunting):
    def setUp(self):
        super().setUp()
        if call(sys.executable, "-c", "import pycparser")[0] or not any(map(shutil.which, ("gcc", "clang", "cpp"))):
            self.skipTest("there is no pycparser here, or no preprocessor")
        self.write("main.c", MAIN)
        self.write("check.c", CHECK)
        self.write("include/check.h", "int check(int c);\n")
        self.write("in puts/05 mno", "mn!")
        self.write("in puts/09 fgh", "fg!")

    def hunted(self, *words, due=0):
        return self.call("cbi-hunt", "main.c", "check.c", "--inputs", "in puts", "--rate", "1", "--jobs", "1", *words, "--", "-I", "include", due=due)

    def test_files_and_lines_are_those_of_the_text_that_is_given(self):
        out, err = self.hunted("--html", "page.html", "--keep", "kept")
        self.assertIn("\nPerhaps by chance, check.c:5 in check: if (c == '!') was true\nTrue in both failing runs that came there, and in none of the 10 others that did. ", out)
        self.assertIn("\n\n      3 | int check(int c)\n      4 | {\n>     5 |     if (c == '!')\n      6 |         abort();   <- runs only where this is true\n      7 |     return c;\n\nended by: a call of abort (trap 14, 2 runs)\n", out)
        self.assertRegex(out, r"\nported: [^\n]*1 switch" + ("[^\n]*; 10 of 12 outputs as gcc's, 2 runs end in trap 14 where gcc's aborts\n" if shutil.which("gcc") else ""))
        self.assertIn("\n  1. check.c:5, check: if (c == '!') is true\n", self.call("cbi-show", "--hunt", "kept", "--all")[0])
        page = sound(self, self.read("page.html").decode())
        self.assertIn([3, "check.c"], page.headings)
        self.assertIn("#F2L5", page.links)
        self.assertTrue(self.call("cbi-show", "--hunt", "kept", "--format", "quickfix")[0].startswith("check.c:5: Perhaps by chance, if (c == '!') was true: "))
        log = json.loads(self.call("cbi-show", "--hunt", "kept", "--format", "sarif")[0])
        place = log["runs"][0]["results"][0]["locations"][0]["physicalLocation"]
        self.assertEqual(place["artifactLocation"], {"uri": "check.c", "uriBaseId": "%SRCROOT%"})
        self.assertEqual(place["region"], {"startLine": 5, "snippet": {"text": "    if (c == '!')"}})

    def test_the_run_is_made_again_without_what_was_kept(self):
        out, _ = self.hunted("--no-check")
        self.assertNotIn("outputs as gcc's", out)
        command = re.search(r"^the run again: (.*)$", out, re.MULTILINE)[1]
        self.assertIn("It trapped: 14 Abort", self.call("bash", "-c", command)[0])

    def test_a_text_of_cbi_port_is_hunted_with_the_map_beside_it(self):
        self.call("cbi-port", "-I", "include", "--quiet", "main.c", "check.c", "-o", "joined.c")
        words = ["cbi-hunt", "joined.c", "--inputs", "in puts", "--rate", "1", "--runs", "24", "--jobs", "1"]
        out, _ = self.call(*words)
        self.assertIn("\nPerhaps by chance, check.c:5 in check: if (c == '!') was true\n", out)
        self.assertIn("\nlines are those that joined.c.lines names\n", out)
        command = re.search(r"^the run again: (.*)$", out, re.MULTILINE)[1]
        self.assertTrue(command.startswith("cbi transform --mode plain joined.c | "), command)
        for text, told in (("cbi-lines 1\nfiles 0\nfunctions 0\nlines 1\nadded\nend\n", "has 1 line and the text hasn't"), ("no map\n", "is no map of lines")):
            self.write("joined.c.lines", text)
            out, _ = self.call(*words)
            self.assertIn(f"joined.c.lines {told}, so lines are those of joined.c", out)

    def test_what_the_porter_is_told_a_hunt_is_told_too(self):
        """Options of the preprocessor, what goes to stderr, and how memory is kept; the command for the run again has them."""
        self.write("told.c", "#ifdef FAST\n#error fast\n#endif\n#include <stdio.h>\n#include \"check.h\"\nint main(void)\n{\n    int c;\n    while ((c = getchar()) != EOF)\n"
                   "        if (c == BAD)\n            fputs(\"bad\", stderr);\n        else\n            fputc(check(c), stderr);\n    return 0;\n}\n")
        self.write("before.h", "#define BAD '!'\n")
        self.write("judge", "#!/bin/sh\n! grep -q bad \"$2\"\n")
        os.chmod(self.path("judge"), 0o755)
        words = ["cbi-hunt", "told.c", "check.c", "--inputs", "in puts", "--rate", "1", "--runs", "24", "--jobs", "1", "--no-check", "--oracle", "./judge", "-D", "FAST", "-U", "FAST", "-I", "include",
                 "-include", "before.h", "--stderr"]
        for memory in ("cells", "bytes"):
            out, _ = self.call(*words, "--memory", memory)
            self.assertIn("told.c:10 in main: if (c == BAD) was true", out)
            command = re.search(r"^the run again: (.*)$", out, re.MULTILINE)[1]
            self.assertIn(f"cbi-port --quiet --stderr --memory {memory} told.c check.c -Iinclude -DFAST -UFAST -include before.h | ", command)
            self.assertIn("bad", self.call("bash", "-c", command)[0])

    def test_what_the_porter_refuses_is_told_with_its_line(self):
        self.write("check.c", CHECK.replace("    return c;", "    return undeclared_name;"))
        _, err = self.hunted(due=2)
        self.assertRegex(err, r"^check\.c:7:(12: error: 'undeclared_name' undeclared| )")

    def test_too_many_sites_are_told_with_the_schemes_that_are_fewer(self):
        """Each of 260 assignments has a pair with each of 260 variables: 67,600 and more, of 65,536."""
        names = [f"v{number}" for number in range(260)]
        self.write("many.c", "typedef int n;\nint main(void)\n{\n" + "".join(f"    n {name} = 0;\n" for name in names) + "".join(f"    {name} = getchar();\n" for name in names) +
                   "    return 0;\n}\n#include <stdio.h>\n")
        _, err = self.call("cbi-hunt", "many.c", "--inputs", "in puts", due=2)
        self.assertIn("--schemes branches,returns", err)

    def test_a_refusal_has_a_place_and_no_control_byte(self):
        """A text without `main` is refused at its last line, or at its first where it has none."""
        for text, due in (("", "odd.c:1: no `main`"), ("int f(void)\n{\n    return 1;\n}\n", "odd.c:4: no `main`"), ("int main(void)\n{\n    \x1b return 0;\n}\n", r"odd.c:3:5: error: stray '\33' in program" if shutil.which("gcc") else "odd.c:3: the byte `\\033`: ")):
            self.write("odd.c", text)
            _, err = self.call("cbi-hunt", "odd.c", "--inputs", "in puts", due=2)
            self.assertTrue(err.startswith(due), err)
            self.assertEqual(err.count("\n"), 1, err)

    def test_without_the_porter_a_text_is_refused_as_cbi_refuses_it(self):
        self.write("none/pycparser.py", "raise ImportError('not here')\n")
        self.write("bad.c", "int main(void)\n{\n    long n;\n}\n")
        _, err = self.call("env", f"PYTHONPATH={self.path('none')}", "cbi-hunt", "bad.c", "--inputs", "in puts", due=2)
        self.assertIn("\nbad.c:3: refusal 12 Syntax\n\n    2 | {\n    3 |     long n;\n\n", err)
        self.assertEqual(err.count("refusal"), 1, err)
        self.assertIn("In its place: `int` or `unsigned`", err)
        self.assertRegex(err, "^cbi-hunt: no pycparser for ")


class Lines(Case):
    def test_a_map_says_whose_a_line_is(self):
        self.write("main.c", "".join(f"main {number}\n" for number in range(1, 10)))
        self.write("check.c", "".join(f"check {number}\n" for number in range(1, 10)))
        self.write("map", LINES)
        self.addCleanup(os.chdir, os.getcwd())
        os.chdir(self.room)
        where = cbi_show.where.ported("out.c", "map")
        self.assertEqual([where.spot(line, "main") for line in (1, 2, 4)], [("main.c", 3, False), ("check.c", 5, False), ("main.c", 9, False)])
        self.assertEqual(where.text(where.spot(2, "main")), "check 5")
        self.assertEqual([where.named(where.spot(line, "main")) for line in (1, 2, 3, 7)], ["main.c:3", "check.c:5", "what the port added", "what the port added"])
        self.assertTrue(where.spot(1, "cbi_strlen").added)
        rows = [files.Row(rank, rank, "branches", function, line, "if is true", 9, 0, 9, 9, 1000000, 500000, 500000, 600000 - rank)
                for rank, (function, line) in enumerate((("cbi_strlen", 1), ("main", 2), ("main", 3)), 1)]
        view = cbi_show.rows.view_of(files.Ranking(rows, None), cbi_show.rows.Given(where))
        self.assertEqual([shown.row.rank for shown in view.added], [1, 3])
        text, whole = ("\n".join(cbi_show.text.text_of(view, every=every)) for every in (False, True))
        self.assertTrue(text.startswith("check.c:5 in main: if was true\n"), text)
        self.assertIn("\n2 rows of what the port added aren't shown (--all shows them).\n", text)
        self.assertNotIn("cbi_strlen", text)
        self.assertIn("\n  1. what the port added, cbi_strlen: if is true\n", whole)
        self.write("map", LINES.replace("lines 4", "lines 9"))
        self.assertRaisesRegex(files.Fault, "map: no map of lines", cbi_show.where.ported, "out.c", "map")


class Port(Case):
    """The worked port of docs/PORTING.md: both programs write the same and end the same, on made inputs."""

    def commands(self, chance):
        things = ["nuts", "bolts", "washers", "screws", "abcdefghijkl", "abcdefghijklm", "n2"]
        for _ in range(chance.randrange(1, 25)):
            word = chance.choice(["in"] * 5 + ["out"] * 4 + ["show", "sum"] * 2 + (["away"] if chance.random() < 0.2 else []))
            yield word if word in ("show", "sum", "away") else f"{word} {chance.choice(things[:5] * 4 + things)} {chance.randrange(2000)}"

    def test_it_does_what_the_program_did(self):
        compiler = shutil.which("cc") or shutil.which("gcc")
        if not compiler:
            self.skipTest("there is no C compiler here")
        ported = os.path.join(EXAMPLES, "ported")
        self.call(compiler, "-w", "-o", "stock", os.path.join(ported, "stock.c"))
        self.write("prog.cbi", self.call("cbi", "transform", "--mode", "plain", os.path.join(ported, "stock_ported.c"))[0])
        _, err = self.call("cbi", "transform", "--mode", "plain", os.path.join(ported, "stock.c"), due=5)
        self.assertEqual(err, "cbi: refusal 11 BadToken line 3\n")
        chance, statuses = random.Random(5), set()
        for _ in range(40):
            few, text = chance.randrange(1000), "".join(line + "\n" for line in self.commands(chance))
            status, due, _ = call("./stock", str(few), given=text.encode(), folder=self.room)
            self.write("input", f"{few}\n{text}")
            out, _ = self.call("cbi", "run", "--input", "input", "--report", "report", "prog.cbi")
            self.assertEqual(out, due, text)
            self.assertIn(f"outcome ended {status}\n".encode(), self.read("report"))
            statuses.add(status)
        self.assertEqual(statuses, {0, 1})
