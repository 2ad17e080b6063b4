"""Looks at the page of the manual and at the completions, as test_tools does at the rest: that they have each command and option."""
import os
import re
import shutil

from looking import SCRIPTS, TOOLS, TOP, Case


class Manual(Case):
    def options_of(self, text):
        return set(re.findall(r"--[a-z]+(?:-[a-z]+)*", text))

    def test_the_page_is_sound(self):
        if not shutil.which("mandoc"):
            self.skipTest("there is no mandoc here")
        self.assertEqual(self.call("mandoc", "-Tlint", "-Wstyle", os.path.join(TOP, "docs", "cbi.1")), ("", ""))

    def test_the_page_has_each_command_and_option(self):
        with open(os.path.join(TOP, "docs", "cbi.1"), encoding="utf-8") as file:
            page = file.read()
        with open(os.path.join(TOP, "docs", "COMMANDS.md"), encoding="utf-8") as file:
            commands = file.read().split("\n## ")[0]
        for option in self.options_of(commands) - {"--name"}:
            self.assertRegex(page, rf"\bFl Fl {option[2:]}\b")
        for command in re.findall(r"^\| `([a-z]+) ", commands, re.MULTILINE):
            self.assertIn(f"\n.It Ic {command} ", page)
        for script in SCRIPTS:
            self.assertIn(script, page)

    def test_completions_offer_each_option(self):
        completions = os.path.join(TOOLS, "completions")
        for script in SCRIPTS:
            options = set(re.findall(r"^  (?:-h, )?(--[a-z-]+)", self.call(script, "--help")[0], re.MULTILINE)) | {"--help"}
            for name in ("cbi.bash", "_cbi"):
                with open(os.path.join(completions, name), encoding="utf-8") as file:
                    self.assertEqual(options - self.options_of(file.read()), set(), f"{script} in {name}")
            with open(os.path.join(completions, "cbi.fish"), encoding="utf-8") as file:
                offered = {"--" + name for named, name in re.findall(r"^ *complete -c (\S+) .*?-l ([a-z-]+)", file.read(), re.MULTILINE) if named in (script, "$script")}
            self.assertEqual(options - offered, set(), f"{script} in cbi.fish")

    def completed(self, *words):
        """What bash offers behind these words."""
        asked = " ".join(f"'{word}'" for word in words)
        script = (f". '{TOOLS}/completions/cbi.bash'; COMP_WORDS=({asked}); COMP_CWORD={len(words) - 1}; "
                  f"named=$(complete -p {words[0]} | sed 's/.*-F \\([^ ]*\\) .*/\\1/'); $named; printf '%s\\n' \"${{COMPREPLY[@]}}\"")
        return set(self.call("bash", "-c", script)[0].split())

    def test_bash_offers_what_fits(self):
        self.assertEqual(self.completed("cbi", ""), {"transform", "run", "bank", "collect", "runs", "rank", "pairs", "lines", "bugs", "cards", "session", "widen", "study"})
        self.assertEqual(self.completed("cbi", "transform", "--mode", ""), {"plain", "full", "sampled"})
        self.assertEqual(self.completed("cbi", "rank", "--p"), {"--policy"})
        self.assertEqual(self.completed("cbi", "session", "--p"), {"--program", "--policy"})
        self.assertEqual(self.completed("cbi", "widen", "--"), {"--whole", "--part"})
        self.assertEqual(self.completed("cbi", "lines", "--"), {"--most", "--apart"})
        self.assertEqual(self.completed("cbi", "bugs", "--"), {"--most", "--also"})
        self.assertEqual(self.completed("cbi", "bugs", "--also", ""), set())
        self.assertEqual(self.completed("cbi", "runs", "--"), {"--inputs", "--expect", "--rate", "--seed", "--first", "--turns"})
        self.assertEqual(self.completed("cbi-show", "--format", "s"), {"sarif"})
        self.assertEqual(self.completed("cbi-port", "--memory", ""), {"auto", "cells", "bytes", "flat"})
        if shutil.which("zsh"):
            self.call("zsh", "-n", os.path.join(TOOLS, "completions", "_cbi"))

    def test_fish_offers_what_fits(self):
        if not shutil.which("fish"):
            self.skipTest("there is no fish here")
        for line, due in (("cbi ru", {"run", "runs"}), ("cbi runs --f", {"--first"}), ("cbi lines --a", {"--apart"}), ("cbi bugs --a", {"--also"}), ("cbi transform --mode ", {"plain", "full", "sampled"}), ("cbi-hunt --hangs ", {"neither", "fail"}), ("cbi-show --format s", {"sarif"}), ("cbi-port --memory b", {"bytes"})):
            out, _ = self.call("fish", "--no-config", "-c", f"source {TOOLS}/completions/cbi.fish; complete -C '{line}'")
            self.assertEqual({found.split("\t")[0] for found in out.split("\n") if found}, due, line)
