"""Looks at what cbi-hunt says of what it is given wrong, of oracles that waver, of disks that are full, and of how far it is, as test_tools does at the rest."""
import argparse
import ast
import contextlib
import io
import os
import re
import shutil
import subprocess
import sys
import unittest
import unittest.mock

import looking
from looking import TOOLS, Case, Hunting, environment, sources

sys.path.insert(0, TOOLS)
from cbi_hunt import beside_gcc, counts, given, texts  # noqa: E402
from cbi_show import files, traps  # noqa: E402
from cbi_port import builds  # noqa: E402

PLAIN = "int main(void)\n{\n    return getchar() - getchar();\n}\n"


class Given(Case):
    """What is no program, no input or no file is refused in a line that says what to do."""

    def setUp(self):
        super().setUp()
        self.write("in/a", "ab")
        self.write("in/b", "b")
        self.write("fine.c", PLAIN)

    def refused(self, *words):
        _, err = self.call("cbi-hunt", "--inputs", "in", *words, due=2)
        return err

    def test_what_is_no_text_is_told_in_a_line(self):
        self.write("wide.c", PLAIN.encode("utf-16"))
        self.write("wide_without_a_mark.c", PLAIN.encode("utf-16-be"))
        self.write("bytes.c", bytes(range(256)))
        self.write("control.c", bytes(range(1, 32)) * 9)
        shutil.copy(looking.CBI, self.path("program"))
        os.symlink("loop.c", self.path("loop.c"))
        for name, said in (("wide.c", "wide.c is UTF-16: convert it to UTF-8 (iconv -f UTF-16 -t UTF-8)"), ("wide_without_a_mark.c", "wide_without_a_mark.c is UTF-16: convert it to UTF-8 (iconv -f UTF-16 -t UTF-8)"),
                           ("bytes.c", "bytes.c is a binary file: name a C text"), ("control.c", "control.c is a binary file: name a C text"), ("program", "program is an executable: name the C files that it was built from"),
                           ("in", "in is a folder: name the C files in it"), ("none.c", "none.c: there is no such file or folder"), ("fine.c/x.c", "fine.c/x.c: not a directory"),
                           ("loop.c", "loop.c: too many levels of symbolic links")):
            self.assertEqual(self.refused(name), f"cbi-hunt: {said}\n")

    @unittest.skipIf(os.geteuid() == 0, "root may enter any folder")
    def test_a_folder_that_may_not_be_entered(self):
        self.write("shut/x.c", PLAIN)
        os.chmod(self.path("shut"), 0)
        self.addCleanup(os.chmod, self.path("shut"), 0o700)
        self.assertEqual(self.refused("shut/x.c"), "cbi-hunt: shut/x.c: permission denied\n")

    def test_texts_that_are_taken_are_not_refused_for_their_bytes(self):
        for data in (PLAIN.encode(), b"\xef\xbb\xbf" + PLAIN.encode(), PLAIN.replace("\n", "\r\n").encode(), "/* \xe4 */".encode("latin-1") + PLAIN.encode(), b"", b"\x0cint x;\x1a", b"/* \x07 \x1b[2J */\nint x;\nint main(void) { return x; }\n"):
            given.check_text(self.write("text.c", data))

    def test_what_is_no_c_is_told_by_gcc(self):
        self.write("x.c", "int main(void)\n{\n    retrun 0;\n}\n")
        said = subprocess.run(["gcc", "-std=gnu99", "-fsyntax-only", "-fdiagnostics-color=never", "-fno-diagnostics-show-caret", "x.c"], cwd=self.room, env=dict(environment(), LC_ALL="C"), stderr=subprocess.PIPE, check=False)
        errors = [line for line in said.stderr.decode().splitlines() if "error: " in line]
        self.assertRegex(errors[0], "^x.c:3:")
        self.assertEqual(self.refused("x.c").splitlines(), errors)

    def test_an_input_that_is_too_large_is_left_out(self):
        with open(self.path("in/large"), "wb") as file:
            file.truncate(16777217)
        out, _ = self.call("cbi-hunt", "fine.c", "--inputs", "in", due=1)
        self.assertIn("\nleft out, since larger than 16,777,216 bytes: large\n", out)
        self.assertIn("2 runs on 2 inputs: no", out.replace("0 failed", "no failed"))
        os.mkdir(self.path("all"))
        shutil.move(self.path("in/large"), self.path("all/large"))
        _, err = self.call("cbi-hunt", "fine.c", "--inputs", "all", due=2)
        self.assertEqual(err, "cbi-hunt: all inputs are larger than 16,777,216 bytes, the most that cbi takes\n")

    def test_a_main_with_parameters_is_told_of_arguments(self):
        self.write("x.c", "#include <stdlib.h>\nint main(int argc, char **argv)\n{\n    return atoi(argv[1]);\n}\n")
        note = "main takes arguments and is given none: --args 'WORD WORD', or --args first-line for those of the input's first line"
        self.assertIn("\n" + note + "\n", self.call("cbi-hunt", "x.c", "--inputs", "in", "--no-check", due=1)[0])
        self.assertNotIn(note, self.call("cbi-hunt", "x.c", "--inputs", "in", "--no-check", "--args", "7", due=1)[0])
        self.write("x.c", "#include <string.h>\n/* main(int argc, char **argv) */\nint main(void)\n{\n    return strlen(\"main(int a, b)\");\n}\n")
        self.assertNotIn(note, self.call("cbi-hunt", "x.c", "--inputs", "in", "--no-check", due=1)[0])

    def test_without_pycparser_the_cure_comes_first(self):
        self.write("x.c", "#include <string.h>\nint main(void)\n{\n    return (int)strlen(\"a\");\n}\n")
        self.write("hidden/pycparser.py", "raise ImportError('none here')\n")
        done = subprocess.run(["cbi-hunt", "x.c", "--inputs", "in"], cwd=self.room, env=dict(environment(), PYTHONPATH=self.path("hidden")), stdout=subprocess.PIPE, stderr=subprocess.PIPE, check=False)
        first, *rest = done.stderr.decode().splitlines()
        self.assertEqual(done.returncode, 2)
        self.assertRegex(first, r"^cbi-hunt: no pycparser for /\S*python\S*: (apt install python3-pycparser|/\S*python\S* -m pip install pycparser)$")
        self.assertEqual(rest[0], "The porter, which translates what the dialect lacks, needs it. Without it this is refused:")

    def test_the_cure_names_the_interpreter(self):
        for prefix, said in (("/usr", "apt install python3-pycparser"), ("/home/a/venv", f"{sys.executable} -m pip install pycparser")):
            with unittest.mock.patch.object(sys, "prefix", prefix):
                self.assertEqual(texts.cure(), said)


class Advice(Case):
    def test_each_option_that_is_named_is_there(self):
        """What the scripts say names options: each is one of a script or of cbi."""
        with open(os.path.join(looking.TOP, "docs", "COMMANDS.md"), encoding="utf-8") as file:
            there = set(re.findall(r"--[a-z]+(?:-[a-z]+)*", file.read().split("\n## ")[0]))
        for script in ("cbi-hunt", "cbi-show", "cbi-explain", "cbi-port"):
            there |= set(re.findall(r"(?m)^  (?:-h, )?(--[a-z-]+)", self.call(script, "--help")[0])) | {"--help", "--version"}
        of_others = {"--sshloginfile", "--unproved"}   # of GNU parallel, and of ./build
        checked = 0
        for name in [name for name in sources() if "cbi_port" not in name and re.search(r"/(cbi_show/(text|explain|traps)|told|words|texts|inputs|looks|since|flaky|room|given)\.py$", name)]:
            with open(name, encoding="utf-8") as file:
                strings = [node.value for node in ast.walk(ast.parse(file.read())) if isinstance(node, ast.Constant) and isinstance(node.value, str)]
            named = {option for text in strings for option in re.findall(r"(?<![\w-])--[a-z]+(?:-[a-z]+)*", text)}
            checked += len(named)
            self.assertEqual(named - there - of_others, set(), name)
        self.assertGreater(checked, 30)


class Wavering(Hunting):
    def test_an_oracle_with_two_verdicts_is_told(self):
        """The second time it says the other thing of the same two files; one that doesn't isn't told."""
        self.write("waver.py", "import os, sys\nname = os.path.basename(sys.argv[1]) + '.seen'\nseen = os.path.exists(name)\nopen(name, 'w').close()\nsys.exit(seen != ('a' in open(sys.argv[1]).read()))\n")
        out = self.hunt("--inputs", "in puts", "--oracle", "python3 waver.py", due=None)
        found = re.match(r"The oracle python3 is flaky: it gave two verdicts on the same input and output for (\d+) of (\d+) inputs? that it judged twice \(as ", " ".join(out.split()))
        self.assertTrue(found, out)
        self.assertEqual(found[1], found[2], "each second verdict is another")
        self.assertNotIn("is flaky", self.hunt("--inputs", "in puts", "--oracle", "python3 judge.py", due=None))


class Hanging(Case):
    def test_a_program_that_hangs_in_both_builds_is_told_as_that(self):
        self.write("x.c", "#include <string.h>\nint main(void)\n{\n    int c = getchar();\n    while (c == 'h')\n        ;\n    return (int)strlen(\"\");\n}\n")
        for number in range(10):
            self.write(f"in/{number}", "h" if number < 3 else "a")
        out, _ = self.call("cbi-hunt", "x.c", "--inputs", "in", "--hangs", "fail", "--turns", "1000", due=None)
        self.assertIn("; 7 of 10 outputs as gcc's, 3 runs hang in both builds\n", out)

    def test_it_is_run_once_and_not_waited_for_long(self):
        """What stands in for gcc's build notes each call; it sleeps for a minute and a half at `h`, and is ended after a second or so."""
        self.transform("int main(void)\n{\n    while (getchar() == 'h')\n        for (;;)\n            ;\n    return 0;\n}\n", "plain")
        os.chmod(self.write("native", f"#!/bin/sh\nread -r word\necho \"$word\" >>'{self.path('calls')}'\ncase $word in h*) exec sleep 90 ;; esac\n"), 0o755)
        chosen, patience = argparse.Namespace(args=None, turns=1000), []
        run = subprocess.run

        def noted(words, **more):
            patience.append(more.get("timeout"))
            return run(words, **more)

        native = builds.Builds(builds.Files([]), self.room)
        native.made = {builds.OWN: self.path("native"), builds.NARROW: None}
        comparison = beside_gcc.Comparison(chosen, native, self.path("prog.cbi"), looking.CBI, self.room)
        with unittest.mock.patch.object(beside_gcc.subprocess, "run", noted):
            found = comparison.compare([(name, name.encode() + b"\n") for name in ("h1", "a1", "h2", "a2", "a3")])
        self.assertEqual((found.equal, found.total, found.summary()), (3, 5, "3 of 5 outputs as gcc's, 2 runs hang in both builds"))
        self.assertEqual(sorted(self.read("calls").split()), [b"a1", b"a2", b"a3", b"h1", b"h2"])
        longest = max(1.0, 20 * comparison.longest)
        self.assertEqual([seconds for seconds in patience if seconds and seconds != 20], [longest, longest])


class Room(Hunting):
    """Where there is no room left."""

    def test_a_page_without_room_leaves_the_text(self):
        out, err = self.call("cbi-hunt", "upper.c", "--inputs", "both", "--html", "/dev/full", due=2)
        self.assertIn("12 runs on 12 inputs: 3 failed, 9 succeeded\n", out)
        self.assertEqual(err, "cbi-hunt: /dev/full: no space left on device; the page isn't written, and all of it stands in the text\n")

    def small(self, size):
        """A file system so small, where one may be made."""
        os.mkdir(self.path("small"))
        if subprocess.run(["mount", "-t", "tmpfs", "-o", f"size={size}", "none", self.path("small")], stderr=subprocess.DEVNULL, check=False).returncode:
            self.skipTest("no file system can be mounted here")
        self.addCleanup(subprocess.run, ["umount", self.path("small")], check=True)

    def test_a_hunt_without_room_says_what_is_kept_and_goes_on(self):
        self.small("1m")
        words = ["cbi-hunt", "upper.c", "--inputs", "both", "--keep", "small/kept", "--rate", "2", "--runs", "40000", "--jobs", "1"]
        _, err = self.call(*words, due=2)
        found = re.fullmatch(r"cbi-hunt: no space left in small/kept: (no|\d+) runs? (?:is|are) kept there; make room and say the same again, which makes the rest alone\n", err)
        self.assertTrue(found, err)
        subprocess.run(["mount", "-o", "remount,size=64m", self.path("small")], check=True)
        words[words.index("40000")] = "2000"
        self.assertIn(" on 12 inputs: ", self.call(*words, due=None)[0])


class Progress(Case):
    def told(self, **given):
        """What comes to err, which is a file, of lines at these seconds."""
        err = io.StringIO()
        kept = {name: value for name, value in os.environ.items() if name != "CBI_PROGRESS"}
        with contextlib.redirect_stderr(err), unittest.mock.patch.dict(os.environ, {**kept, **given}, clear=True), unittest.mock.patch.object(counts.time, "monotonic") as clock:
            clock.return_value = 0.0
            told = counts.Told()
            for seconds in (9, 59, 61, 100, 122):
                clock.return_value = float(seconds)
                told.show(f"{seconds} s")
            told.clear()
        return err.getvalue().splitlines()

    def test_where_err_is_a_file_a_line_comes_each_minute(self):
        self.assertEqual(self.told(), ["cbi-hunt: 61 s", "cbi-hunt: 122 s"])
        self.assertEqual(self.told(CBI_PROGRESS="many"), ["cbi-hunt: 61 s", "cbi-hunt: 122 s"])
        self.assertEqual(self.told(CBI_PROGRESS="50"), ["cbi-hunt: 59 s", "cbi-hunt: 122 s"])
        self.assertEqual(self.told(CBI_PROGRESS="0"), [])


class Marked(Hunting):
    def test_weak_facts_are_marked_for_editors(self):
        """Three of twelve inputs fail, so that no fact is beyond chance."""
        self.hunt("--inputs", "both", "--keep", "kept")
        lines = self.call("cbi-show", "--hunt", "kept", "--format", "quickfix")[0].splitlines()
        bugs = [line for line in lines if ": suspicious: " not in line]
        self.assertTrue(bugs and all(re.match(r"upper\.c:\d+: Perhaps by chance, ", line) for line in bugs), lines)

    def test_the_run_again_is_told_what_is_expected(self):
        out = self.hunt("--inputs", "both")
        again = re.search("(?m)^the run again: (.*)$", out)[1]
        self.assertIn(" --expect both/02.expected ", again)
        self.assertIn("It counts as failing: its output wasn't the expected one.", self.call("bash", "-c", again)[0])

    def test_the_manual_says_what_stands_behind_two_dashes(self):
        if not shutil.which("mandoc"):
            self.skipTest("there is no mandoc here")
        out, _ = self.call("mandoc", "-Tascii", os.path.join(looking.TOP, "docs", "cbi.1"))
        self.assertRegex(re.sub(".\b", "", out), r"cbi-hunt text\.c \.\.\. --inputs folder \[option \.\.\.\]\s+\[-- cpp-option \.\.\.\]")


class Traps(Case):
    def test_each_trap_is_explained_by_its_number(self):
        for trap, (name, meaning) in files.TRAPS.items():
            lines = list(traps.explained(str(trap)))
            self.assertEqual(lines[0], f"Trap {trap}, {name}: {meaning}.")
            self.assertRegex(lines[1], r"^In C: C99 [67]\.|^In C: C99 5\.2\.4\.1|^In C: C says nothing")
            self.assertRegex(lines[2], "^Typical cause: [A-Z][^\n]{20,}$")
            self.assertEqual(len(lines), 4)
        self.assertTrue(self.call("cbi-explain", "trap", "8")[0].startswith("Trap 8, NullUse: null pointer dereference.\nIn C: C99 6.5.3.2 paragraph 4: "))
        self.assertEqual(len(self.call("cbi-explain", "trap")[0].splitlines()), len(files.TRAPS))
        for wrong in ("15", "-1"):
            self.assertEqual(self.call("cbi-explain", "trap", wrong, due=2)[1], f"cbi-explain: there is no trap {wrong}: traps are 1 to 14, and 99\n")

    def test_names_of_the_field_are_those_that_are_told(self):
        for trap, said in ((1, "signed integer overflow"), (2, "division by zero"), (4, "uninitialised value"), (6, "out of bounds"), (7, "use after free"), (8, "null pointer dereference"), (10, "invalid free"), (12, "stack overflow"), (13, "assertion failed")):
            self.assertIn(said, files.TRAPS[trap][1])
