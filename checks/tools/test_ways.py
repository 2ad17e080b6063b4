"""Looks at the commands for a fresh clone, and at the first screen of README.md, as test_tools does at the rest."""
import collections
import os
import re
import resource
import shutil
import signal
import subprocess
import sys

import browsing
import looking
from looking import Case, environment, heed_interrupts

STAND_IN_FOR_RT = """\
#!{python}
import os, signal, subprocess, sys, tempfile
signal.signal(signal.SIGTERM, lambda *_: sys.exit(143))
folder = sys.argv[sys.argv.index("--cases") + 1]
for name in sorted(name for name in os.listdir(folder) if not name.endswith(".args")):
    with open(os.path.join(folder, name + ".args")) as file:
        words = file.read().split("\\n")[:-1]
    with open(os.path.join(folder, name), "rb") as given, tempfile.TemporaryDirectory() as room:
        done = subprocess.run([{cbi!r}, *words], stdin=given, stdout=subprocess.PIPE, stderr=subprocess.PIPE, cwd=room)
    sys.stdout.buffer.write(f"== {{name}}\\n".encode() + done.stdout)
    sys.stdout.flush()
    sys.stderr.buffer.write(done.stderr + f"case={{name}} run=ended status={{done.returncode}} runners=1 proved=no\\n".encode())
    sys.stderr.flush()
"""


class Ways(Case):
    """The commands for a fresh clone."""

    def test_words_that_are_wrong_are_told(self):
        usages = {"build": "usage: ./build FOLDER [--man FOLDER] [--gate | --unproved | --checked]\n", "demo": "usage: ./demo [--build] [PAGE]\n", "check": "usage: ./check [--all] [KIND..]\n"}
        for words in (["build"], ["build", "--what", "a"], ["build", "a", "b"], ["build", "a", "--man"], ["build", "a", "--gate", "--unproved"], ["build", "--help"], ["demo", "a", "b"], ["demo", "--help"], ["check", "--help"]):
            self.executable("rt", "#!/bin/sh\necho \"$*\" >>'" + self.path("asked") + "'\n")
            self.assertEqual(self.way(*words), (2, "", usages[words[0]]), words)
        self.assertFalse(os.path.exists(self.path("asked")))

    def test_they_say_what_they_need(self):
        self.executable("dirname", "#!/bin/sh\nexec /usr/bin/dirname \"$@\"\n")
        for name, words in (("build", ["here"]), ("check", []), ("demo", [])):
            status, out, err = self.way(name, *words, path=self.path("bin"))
            self.assertEqual((status, out), (2, ""))
            self.assertTrue(err.startswith(f"./{name}: there is no rt on the path; it "), err)
            self.assertEqual(err.count("\n"), 1, err)
        self.assertFalse(os.path.exists(self.path("here")))
        self.executable("cbi", "#!/bin/sh\n")
        self.assertTrue(self.way("demo", path=self.path("bin"))[2].startswith("./demo: there is no python3 on the path; it "))

    def executable(self, name, text):
        """A program that comes first on the path of a way."""
        os.chmod(self.write(os.path.join("bin", name), text), 0o755)

    def begin(self, name, *words, path=None, tmp=None, **more):
        """Begins a command for a fresh clone, in one that has no executable, and with no cbi on the path."""
        if not os.path.exists(self.path("top")):
            for part in ("cbi/src/main.rt", "low/src/lib.rt", "low/must-fail/one.edit", "low/out/old", "high/src/lib.rt"):
                self.write("top/crates/" + part, "\n")
            self.write("top/crates.txt", "# two rooms\nlow:\nhigh: low\ncbi: low kit\n")
            self.write("top/HANDLES", "Handles allowed: none.\n")
            for part in ("demo", "check", "build", "install"):
                shutil.copy(os.path.join(looking.TOP, part), self.path("top", part))
            for part in ("tools", "examples", "docs", "house"):
                os.symlink(os.path.join(looking.TOP, part), self.path("top", part))
        plain = os.pathsep.join([self.path("bin"), os.path.dirname(sys.executable), "/usr/local/bin", "/usr/bin", "/bin"])
        given = dict(environment(), PATH=path or plain, **({"TMPDIR": tmp} if tmp else {}))
        return subprocess.Popen(["/bin/bash", self.path("top", name), *words], cwd=self.room, env=given, stdin=subprocess.DEVNULL, stdout=subprocess.PIPE, stderr=subprocess.PIPE, **more)

    def way(self, name, *words, path=None, tmp=None):
        """What comes of it: status, out and err."""
        begun = self.begin(name, *words, path=path, tmp=tmp)
        out, err = begun.communicate()
        return begun.returncode, out.decode(), err.decode()

    BUILT = "#!/bin/sh\necho \"$*\" >>'{log}'\nfind . -path './crates/*' -type f | sort >>'{log}'\necho a line of rt >&2\nmkdir -p crates/cbi/out && cp '{cbi}' crates/cbi/out/cbi\n"

    def test_build_proves_what_the_executable_needs_and_leaves_it_with_its_scripts(self):
        """What stands in for rt notes what it is asked for, and leaves an executable where rt does."""
        needed = ["ci", "./crates/cbi/src/main.rt", "./crates/low/src/lib.rt"]
        whole = [*needed[:2], "./crates/high/src/lib.rt", "./crates/low/must-fail/one.edit", "./crates/low/out/old", needed[2]]
        os.mkdir(self.path("tmp"))
        for words, asked in (([], needed), (["--gate"], whole)):
            self.executable("rt", self.BUILT.format(log=self.path("log"), cbi=os.path.abspath(looking.CBI)))
            self.write("log", "")
            status, out, err = self.way("build", "here", "--man", "pages", *words, tmp=self.path("tmp"))
            self.assertEqual((status, self.read("log").decode().splitlines()), (0, asked))
            self.assertEqual(os.listdir(self.path("tmp")), [])
            self.assertTrue(out.endswith(f"{self.path('here/cbi')}\n{self.path('pages/man1/cbi.1')}\n"), out)
            self.assertRegex(err, r"^\./build: rt [^\n]*README\.md says how long it takes\. [^\n]*\na line of rt\n$")
            self.assertTrue(os.path.exists(self.path("pages/man1/cbi.1")))
            self.assertEqual([name for name in os.listdir(self.path("here/cbi_hunt")) if not name.endswith(".py")], [])
            alone = {"PATH": os.pathsep.join([os.path.dirname(sys.executable), "/usr/bin", "/bin"])}
            self.write("few/1", "!")
            done = subprocess.run([self.path("here/cbi-hunt"), self.write("upper.c", looking.UPPER), "--inputs", "few"], cwd=self.room, env=alone, stdout=subprocess.PIPE, stderr=subprocess.PIPE, check=False)
            self.assertEqual((done.returncode, done.stderr), (1, b""))
            self.assertIn(b"1 run on 1 input: 1 failed, 0 succeeded\n", done.stdout)
            shutil.rmtree(self.path("here"))
            shutil.rmtree(self.path("top/crates/cbi/out"))

    def test_build_leaves_nothing_where_rt_proves_nothing(self):
        self.executable("rt", "#!/bin/sh\necho refused >&2\nexit 1\n")
        status, out, err = self.way("build", "here")
        self.assertEqual((status, out), (1, ""))
        self.assertIn("\nrefused\n", err)
        self.assertEqual(os.listdir(self.path("here")), [])

    # It says of each row of the files that it is given that it is met, as a program of cases does. Several are at work beside each other.
    ANSWERS = """\
#!/bin/sh
ulimit -s >>'{room}/log'
said='{room}/said'.$$
for word; do
    case $word in *=*) sed -n 's/^case /ok /p' "${{word#*=}}" ;; esac
done >"$said"
echo "$(wc -l <"$said") ok, 0 not" >>"$said"
{body}
"""

    def checked(self, body, *words, due=0, limit=None):
        """What ./check tells out and err where rt does this with what is `said`, with a stack that may be so large."""
        self.executable("rt", self.ANSWERS.format(room=self.room, body=body))
        return self.call("bash", "-c", f"ulimit -S -s 8192; ulimit -H -s {limit or '$(ulimit -H -s)'}; PATH='{self.path('bin')}':$PATH exec '{looking.TOP}/check' \"$@\"", "check", *words, due=due)

    def test_rows_that_are_met_and_rows_that_are_not(self):
        """What is expected is what the gate asks of the program, but for the rows that are left out."""
        slow = sum(1 for kind, *_ in self.slow_rows() if kind == "cases_pairs")
        begins = r"^\./check: rt builds and runs programs without their proofs, [^\n]* CPU minutes each: cases_pairs\. \.ci/run proves, [^\n]*\n"
        out, err = self.checked('cat "$said"', "cases_pairs")
        self.assertRegex(out, begins + rf"cases_pairs: {29 - slow} ok, 0 not, in \d+ s; {slow} slow rows left out\n$")
        self.assertEqual(err, "")
        out, err = self.checked('cat "$said"', "--all", "cases_pairs")
        self.assertRegex(out, begins + r"cases_pairs: 29 ok, 0 not, in \d+ s\n$")
        for body, told, status in (('sed "s/^ok no runs/differs no runs/" "$said"; exit 1', "< ok no runs\n", 1), ('sed "/^ok no runs/d" "$said"', "< ok no runs\n", 0), ("echo no memory >&2; exit 3", "\nno memory\n", 3)):
            out, err = self.checked(body, "cases_pairs", due=1)
            self.assertRegex(out, begins + "$")
            self.assertIn(told, err)
            self.assertTrue(err.endswith(f"\n./check: cases_pairs didn't write what the stdout of its program has; rt try ended with status {status}\n"), err)
        for name in ("nowhere", "cbi", "cases_rows", "cases"):
            _, err = self.checked('cat "$said"', name, due=2)
            self.assertEqual(err, f"./check: {name} is no kind of cases; there are cases_base cases_pairs cases_machine cases_files cases_texts cases_commands\n")

    def test_all_kinds_of_cases_are_looked_at_where_none_is_named(self):
        # no git, so the released executable isn't taken for the tree's own, which checks/process and checks/examples would look at
        self.executable("git", "#!/bin/sh\nexit 1\n")
        out, _ = self.checked('cat "$said"')
        found = {line.split(": ")[0]: int(line.split()[1]) for line in out.splitlines()[1:]}
        due = collections.Counter()
        for crate in ("cases", "cases_commands"):
            for name in self.of_crate(crate, "args").split():
                due[self.kind_of(crate, name)] += f"\n{self.of_crate(crate, 'data', name)}".count("\ncase ")
        due.subtract(kind for kind, *_ in self.slow_rows())
        self.assertEqual(found, dict(due))

    def test_every_file_of_rows_is_looked_at_and_each_row_is_expected_once(self):
        for crate in ("cases", "cases_commands"):
            folder = os.path.join(looking.TOP, "crates", crate, "data")
            there = [os.path.relpath(os.path.join(at, name), folder) for at, _, names in os.walk(folder) for name in names]
            names = self.of_crate(crate, "args").split()
            self.assertEqual(sorted(names), sorted(there))
            rows = [line[5:] for name in names for line in self.of_crate(crate, "data", name).split("\n") if line.startswith("case ")]
            self.assertEqual(self.of_crate(crate, "stdout").splitlines(), [*(f"ok {row}" for row in rows), f"{len(rows)} ok, 0 not"])

    def test_the_program_of_a_kind_has_its_rows_alone(self):
        """It is a library and a main, so that its answers don't wait for what other kinds link."""
        note = f"sed -n 's/^use cases_/made of /p' src/main.rt >>'{self.path('made')}'; sed -n '/^look_at_/p' ../../crates.txt >>'{self.path('made')}'"
        out, _ = self.checked(f'{note}; cat "$said"', "cases_base")
        self.assertIn("\ncases_base: 16 ok, 0 not, in ", out)
        self.assertEqual(self.read("made").decode(), "made of base::BaseRows;\nmade of rows::look;\nlook_at_cases_base: cases_base cases_rows\n")

    def test_rows_that_nest_deep_have_a_large_stack_where_the_system_gives_one(self):
        given = resource.getrlimit(resource.RLIMIT_STACK)[1]
        most = 65536 if given == resource.RLIM_INFINITY else min(65536, given // 1024)
        for limit, due in ((None, str(most)), ("16384", "16384")):
            self.write("log", "")
            self.checked('cat "$said"', "cases_pairs", limit=limit)
            self.assertEqual(self.read("log").decode(), due + "\n")
        _, err = self.checked("exit 1", "cases_pairs", due=1, limit="16384")
        self.assertIn("\n./check: the stack has 16384 kilobytes here, and rows that nest deep ask for 65536\n", err)

    def of_crate(self, crate, *parts):
        with open(os.path.join(looking.TOP, "crates", crate, *parts), encoding="utf-8") as file:
            return file.read()

    @staticmethod
    def kind_of(crate, name):
        """The kind of the rows that a file of a program of cases has."""
        return f"cases_{name.split('/')[0]}" if crate == "cases" else crate

    def slow_rows(self):
        """The rows that are left out: kind, crate, file, row and why."""
        with open(os.path.join(looking.TOP, "checks", "slow_rows"), encoding="utf-8") as file:
            rows = [line.rstrip("\n").split("|") for line in file if not line.startswith("#")]
        return [(self.kind_of(crate, name), crate, name, row, why) for crate, name, row, why in rows]

    def test_what_is_left_out_is_a_row_and_has_a_reason(self):
        for _, crate, name, row, why in self.slow_rows():
            self.assertIn(name, self.of_crate(crate, "args").split())
            self.assertEqual(self.of_crate(crate, "data", name).split("\n").count(f"case {row}"), 1, row)
            self.assertTrue(why, row)

    def test_the_demo_ends_in_the_answer_and_leaves_the_page(self):
        tool = os.path.abspath(looking.CBI)
        self.executable("cbi", f"#!/bin/sh\nexec '{tool}' \"$@\"\n")
        status, out, err = self.way("demo", "page.html")
        self.assertEqual((status, err), (0, f"./demo: has {self.path('bin/cbi')} hunt the bug of examples/lookup in 250 runs, which look at every visit: seconds.\n"
                                             "./demo: next: ./install, and then cbi-hunt YOUR.c --inputs FOLDER (docs/HUNTING.md)\n"))
        self.assertTrue(out.startswith("1 bug explains all 41 failing inputs (250 inputs).\n\nexamples/lookup/lookup.c:41 in main: find(name) returned NULL\n"), out)
        self.assertTrue(out.endswith(f"page: {self.path('page.html')}\n"), out)
        self.assertIn(b"<h1><code>find(name)</code> returned NULL at examples/lookup/lookup.c:41", self.read("page.html"))

    def test_without_an_executable_the_demo_ends_in_the_same_words(self):
        """What stands in for rt runs what it is given as cases, one after another, each in a folder of its own; no cbi is on the path."""
        self.executable("rt", STAND_IN_FOR_RT.format(python=sys.executable, cbi=os.path.abspath(looking.CBI)))
        os.mkdir(self.path("tmp"))
        status, out, err = self.way("demo", "page.html", tmp=self.path("tmp"))
        self.assertEqual(os.listdir(self.path("tmp")), [])
        self.wait_for(lambda: not self.at_work_in(self.path("tmp")))
        self.assertEqual(self.at_work_in(self.path("tmp")), [])
        self.assertEqual(status, 0, err)
        self.assertTrue(out.startswith("1 bug explains all 12 failing inputs (100 inputs).\n\nexamples/lookup/lookup.c:41 in main: find(name) returned NULL\n"
                                       "True in all 12 failing runs that came there, and in none of the 87 others that did.\n"), out)
        self.assertIn("\nended by: a null pointer dereference (trap 8, 12 runs)\n", out)
        self.assertIn("\nthe run again: printf 'd=6 d? d? d? c? d? d?\\n' >input; cbi transform --mode plain examples/lookup/lookup.c | ", out)
        self.assertTrue(out.endswith(f"page: {self.path('page.html')}\n"), out)
        self.assertRegex(err, r"^\./demo: there is no cbi yet, so rt builds it without its proofs and makes each call of a hunt of 100 runs, [^\n]* CPU minutes\.\n")
        self.assertTrue(err.endswith("house/try-cbi: nothing was kept of the cbi that was built; ./build FOLDER --unproved leaves one\n"), err)
        self.assertIn(b"<h1><code>find(name)</code> returned NULL at examples/lookup/lookup.c:41", self.read("page.html"))

    def test_a_demo_that_is_ended_while_it_builds_leaves_nothing(self):
        """What stands in for rt comes to no end by itself."""
        self.executable("rt", "#!/bin/sh\ntrap 'kill $!; exit 143' TERM\nsleep 300 &\nwait\n")
        for number in (signal.SIGTERM, signal.SIGINT):
            folder = self.path(f"tmp{number}")
            os.mkdir(folder)
            begun = self.begin("demo", "page.html", tmp=folder, start_new_session=True, preexec_fn=heed_interrupts)
            self.wait_for(lambda: self.at_work_in(folder, b"lines"), 300)
            (os.killpg if number == signal.SIGINT else os.kill)(begun.pid, number)
            _, err = begun.communicate(timeout=300)
            self.assertEqual((begun.returncode, os.listdir(folder)), (130, []), err)
            self.assertTrue(err.endswith(b" CPU minutes.\ncbi-hunt: interrupted\n"), err)
            self.wait_for(lambda: not self.at_work_in(folder))
            self.assertEqual(self.at_work_in(folder), [])

    def at_work_in(self, folder, word=b""):
        """The processes that have a file of a folder among their words, and this word."""
        found = []
        for number in filter(str.isdigit, os.listdir("/proc")):
            try:
                with open(f"/proc/{number}/cmdline", "rb") as file:
                    words = file.read()
                found += [number] if folder.encode() in words and (not word or word in words.split(b"\0")) else []
            except OSError:
                pass
        return found

    def test_where_nothing_can_be_built_it_says_why(self):
        self.executable("rt", "#!/bin/sh\necho 'error: no such crate' >&2\nexit 2\n")
        _, err = self.call("env", f"PATH={self.path('bin')}:{os.environ['PATH']}", os.path.join(looking.HOUSE, "try-cbi"), "cbi", "bank", "--rate", "1", "--count", "1", "--seed", "1", due=2)
        self.assertIn("house/try-cbi: error: no such crate\n", err)

    def test_text_and_pictures_in_the_documents_are_of_what_the_hunt_writes(self):
        shutil.copytree(os.path.join(looking.EXAMPLES, "lookup"), self.path("lookup"))
        out, _ = self.call("cbi-hunt", "lookup/lookup.c", "--inputs", "lookup/inputs", "--html", "page.html")
        with open(os.path.join(looking.TOP, "docs", "hunt.txt"), encoding="utf-8") as file:
            self.assertEqual(out, file.read())
        with open(os.path.join(looking.TOP, "docs", "hunt.sha256"), encoding="utf-8") as file:
            self.assertEqual(browsing.sum_of(self.path("page.html")), file.read().strip(), "the pictures of docs/ are of another page: checks/pictures makes them anew")

    def test_the_first_screen_is_short_and_says_when_to_take_something_else(self):
        with open(os.path.join(looking.TOP, "README.md"), encoding="utf-8") as file:
            whole = file.read()
        first = whole.split("\n## What is proved\n")[0]
        self.assertLessEqual(len(first.split()), 520)
        self.assertLessEqual(len(whole.split()), 700)
        links = re.findall(r"\]\(([^)#]+)[^)]*\)", first)
        self.assertTrue({"docs/hunt.png", "docs/hunt.txt", "examples/bc/README.md"} <= set(links), links)
        self.assertEqual([link for link in links if not os.path.exists(os.path.join(looking.TOP, link))], [])
        table = first.split("\n## When to take something else\n")[1].strip().split("\n\n")[0]
        self.assertEqual([line.split("|")[1].strip() for line in table.split("\n")[2:]], ["a debugger, `rr`", "AFL++", "coverage-based ranking (Ochiai)", "sanitizers", "sampler-cc"])
        self.assertTrue(all(len(line.split("|")) == 5 and all(cell.strip() for cell in line.split("|")[1:4]) for line in table.split("\n")[2:]), table)

    def test_the_page_of_a_hunt_is_short_and_names_options_that_are_there(self) -> None:
        """Each option on it is one that cbi-hunt or cbi-show has."""
        with open(os.path.join(looking.TOP, "docs", "HUNTING.md"), encoding="utf-8") as file:
            page = file.read()
        self.assertLessEqual(len(page.split()), 1500)
        self.assertTrue(all(f"({name}.png)" in page for name in ("hunt-dark", "hunt-phone", "hunt-print")))
        there = {option for script in ("cbi-hunt", "cbi-show") for option in re.findall(r"(?m)^  (?:-h, )?(--[a-z-]+)", self.call(script, "--help")[0])}
        named = set(re.findall(r"(?<![\w-])--[a-z]+(?:-[a-z]+)*", page))
        self.assertGreater(len(named), 20)
        self.assertEqual(named - there, set())

    def test_the_evidence_of_readme_is_that_of_its_page(self) -> None:
        """Three rows, of the faults that were kept back last: the first three numbers of these rows in docs/EVIDENCE.md."""
        tables = []
        for page, name in (("README.md", "headline in short"), (os.path.join("docs", "EVIDENCE.md"), "headline")):
            with open(os.path.join(looking.TOP, page), encoding="utf-8") as file:
                made = re.findall(rf"<!-- made: {name} -->\n(.*?)<!-- end -->", file.read(), flags=re.DOTALL)
            self.assertEqual(len(made), 1, page)
            tables.append({cells[0]: cells[1:4] for cells in ([cell.strip() for cell in line.strip("|").split("|")] for line in made[0].split("\n") if line.startswith("| "))})
        short, whole = tables
        self.assertEqual(list(short)[1:], ["rows of `rank`", "`lines`", "lines by Ochiai over gcov"])
        self.assertEqual([short[name] for name in list(short)[1:]], [whole[name] for name in list(short)[1:]])
        with open(os.path.join(looking.TOP, "README.md"), encoding="utf-8") as file:
            self.assertIn(f" By chance: {', '.join(whole['five lines by chance'])}.\n", file.read())
