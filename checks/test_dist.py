#!/usr/bin/env python3
"""Looks at releases: house/release, checks/dist, ./install, ./demo, ./check and ./build --unproved, in a small repository that is made for each case, with what
stands in for rt. Sums, packing and history are looked at by sha256sum, xz and git.

    checks/test_dist.py [built | CBI] [CASE..]    CBI: an executable, or crates/cbi/out/cbi; .ci/run says `built`, since it has just built that one
"""
import os
import re
import shutil
import subprocess
import sys
import tempfile
import time
import unittest

sys.dont_write_bytecode = True
import dist_base  # noqa: E402
from dist_base import CHANGES, GATE, KIT, RT, Case, tell  # noqa: E402
from test_unproved import Unproved  # noqa: E402,F401


class Releases(Case):
    """house/release, and what checks/dist says of what it leaves."""

    def test_what_a_release_leaves(self):
        head = self.git("rev-parse", "HEAD").strip()
        out, err = self.release()
        self.assertEqual(err.count("\n"), 1)
        packed, sums = self.path("top/dist/cbi.xz"), self.manifest()
        self.assertEqual(subprocess.run(["xz", "-dc", packed], stdout=subprocess.PIPE, check=True).stdout, self.proved)
        self.assertLess(os.path.getsize(packed), len(self.proved) // 2)
        told = subprocess.run(["sha256sum", self.path("proved")], stdout=subprocess.PIPE, check=True).stdout.decode().split()[0].lstrip("\\")
        tree = subprocess.run("git ls-tree -r HEAD crates crates.txt | sha256sum", shell=True, cwd=self.top, stdout=subprocess.PIPE, check=True).stdout.decode().split()[0]
        self.assertEqual(sums, {"version": "0.5.0", "commit": head, "kit": KIT, "target": "x86_64-unknown-linux-gnu", "executable": told, "size": str(len(self.proved)), "crates": tree, "gate": "5 passed, 0 failed"})
        changes = self.read("top/CHANGELOG.md").decode()
        self.assertRegex(changes, r"^# Changes\n\n## 0\.5\.0, \d+ [A-Z][a-z]+ \d{4}\n\n### Added\n\n- `one`: a thing\.\n\n## 28 November 2026\n\n- Older\.\n$")
        self.assertEqual(out, f"cbi 0.5.0\n\nAdded:\n\n- `one`: a thing.\n\nProved by {KIT} at commit {head}; its gate: 5 passed, 0 failed.\nSHA-256 of the executable: {told}\n")
        self.assertEqual(sorted(self.git("status", "--porcelain").splitlines()), [" M CHANGELOG.md", "?? dist/"])
        self.commit("Release")
        self.write("tag", out)
        self.git("tag", "-a", "v0.5.0", "-F", self.path("tag"))
        self.assertEqual(self.git("tag", "-l", "--format=%(contents)", "v0.5.0").strip(), out.strip())

    def test_the_gate_is_run_where_no_log_is_named_and_the_scripts_have_the_version(self):
        self.write("top/CHANGELOG.md", CHANGES.replace("0.5.0", "0.6.0"))
        self.write("top/crates/cbi/out/cbi", self.proved)
        self.call("house/release", "0.6.0")
        self.assertIn(b'\nVERSION = "0.6.0"\n', self.read("top/tools/cbi_show/files.py"))
        self.assertEqual(self.manifest()["version"], "0.6.0")

    def test_what_is_refused_leaves_everything_as_it_was(self):
        def refused(words, version="0.5.0"):
            before = self.git("status", "--porcelain"), self.git("diff")
            out, err = self.release(version, due=1)
            self.assertEqual((out, err.count("\n")), ("", 1))
            self.assertIn(words, err)
            self.assertEqual((self.git("status", "--porcelain"), self.git("diff")), before)

        refused("is no version like 0.5.0", "5.0")
        refused("is no version like 0.5.0", "0.05.0")
        for gate, words in (("4 passed, 1 failed\n", "the gate didn't pass: 4 passed, 1 failed"), ("checks/examples: 40 passed, 0 failed\n", "has no line"), ("", "has no line"),
                            ("0 passed, 0 failed\n", "didn't pass"), ("5 passed, 0 failed (low and the crates below alone: not the gate)\n", "has no line"), ("5 passed, 0 failed\n4 passed, 1 failed\n", "didn't pass")):
            self.write("gate", gate)
            refused(words)
        self.write("gate", GATE)
        self.write("proved", self.read("proved").replace(b"rattle logic=0123", b"rattle logic=4567"))
        refused(f"isn't proved by {KIT}")
        self.write("proved", self.proved)
        self.write("top/crates/low/src/heap.rt", "changed\n")
        refused("crates/ has changes that aren't committed: M crates/low/src/heap.rt")
        self.git("checkout", "-q", ".")
        self.write("top/crates/low/src/new.rt", "new\n")
        refused("crates/ has changes that aren't committed: ?? crates/low/src/new.rt")
        os.unlink(self.path("top/crates/low/src/new.rt"))
        for text in ("# Changes\n", CHANGES.replace(", unreleased", ", 1 May 2026"), CHANGES.replace("### Added\n\n- `one`: a thing.\n", ""), "# Changes\n\n## 0.4.0, 1 May 2026\n\n- a\n" + CHANGES[9:]):
            self.write("top/CHANGELOG.md", text)
            refused("CHANGELOG.md")
        self.write("top/CHANGELOG.md", CHANGES)
        self.released()
        self.write("top/CHANGELOG.md", CHANGES)
        for version in ("0.5.0", "0.4.9"):
            refused(f"{version} isn't above 0.5.0, the last release", version)

    def test_a_release_that_is_not_there_yet(self):
        self.assertEqual(self.looked(), "there is no released executable yet")
        self.assertEqual(self.looked("built"), "there is no released executable yet")
        self.assertIn("checks/dist [built | FILE]", self.call("checks/dist", "--what", due=2)[1])

    def test_the_executable_of_the_same_crates_is_compared_byte_for_byte(self):
        self.released()
        self.assertEqual(self.looked(self.path("proved")), "cbi 0.5.0, sums right; byte for byte what is built from crates/")
        self.assertIn("not compared, since there is no ", self.looked())
        self.assertIn("failed: there is no ", self.looked("built", due=1))
        self.write("top/crates/cbi/out/cbi", self.proved)
        self.assertIn("byte for byte", self.looked("built"))
        changed = bytearray(self.proved)
        text = self.offset_of(".rodata")
        changed[text] ^= 1
        self.write("top/crates/cbi/out/cbi", bytes(changed))
        self.assertRegex(self.looked("built", due=1), rf"^failed: crates/ is what was released, and .* is another executable: {len(changed)} and {len(changed)} bytes; other sections: \.rodata$")
        self.write("top/crates/cbi/out/cbi", "no executable")
        self.assertIn("is another executable", self.looked("built", due=1))
        self.write("bin/rt", RT.format(kit="rattle-kit-1 logic 1", room=self.room), 0o755)
        self.assertIn(f"built by {KIT}; the kit here is rattle-kit-1 logic 1, so other bytes are no fault", self.looked("built"))
        os.unlink(self.path("bin/rt"))
        self.assertIn("the kit here is none, so", self.looked("built"))

    def offset_of(self, name):
        """Where a section begins, by readelf."""
        said = subprocess.run(["readelf", "-SW", self.path("proved")], stdout=subprocess.PIPE, stderr=subprocess.DEVNULL, check=True).stdout.decode()
        return int(re.search(rf"\] {re.escape(name)} +\S+ +\S+ +([0-9a-f]+) ", said)[1], 16)

    def test_what_is_damaged_is_told(self):
        self.released()
        manifest, packed = self.read("top/dist/MANIFEST").decode(), self.read("top/dist/cbi.xz")
        rows = manifest.splitlines(True)
        other = bytearray(packed)
        other[len(other) // 2] ^= 1
        pages = [("".join(rows[:4] + rows[5:]), packed, "doesn't have the lines"), ("".join(rows + rows[-1:]), packed, "doesn't have the lines"), ("".join(rows[:1] + rows[:0:-1]), packed, "doesn't have the lines"),
                 (manifest.replace("size ", "size 1"), packed, "isn't the executable"), (re.sub("executable .{8}", "executable 01234567", manifest), packed, "isn't the executable"),
                 (manifest.replace("executable ", "executable x"), packed, "executable can't be"), (manifest.replace("0 failed", "1 failed"), packed, "gate can't be"), ("", packed, "doesn't have the lines"),
                 (manifest, bytes(other), "can't be unpacked"), (manifest, packed[:-100], "isn't the executable"), (manifest, b"", "isn't the executable"), (manifest, b"\xff\xfe" * 99, "can't be unpacked"), (manifest, None, "can't be unpacked")]
        for page, bytes_of, words in pages:
            self.write("top/dist/MANIFEST", page)
            self.write("top/dist/cbi.xz", bytes_of or b"")
            if bytes_of is None:
                os.unlink(self.path("top/dist/cbi.xz"))
            told = self.looked(self.path("proved"), due=1)
            self.assertIn(words, told)
            out, err = self.call("./install", self.path("here"), due=2)
            self.assertEqual((out, err.count("\n")), ("", 1))
            self.assertIn(words, err)
            self.assertEqual(os.listdir(self.path("here")), [])
        os.unlink(self.path("top/dist/MANIFEST"))
        self.write("top/dist/cbi.xz", packed)
        self.assertIn("failed: dist/ has cbi.xz and no MANIFEST", self.looked(due=1))

    def test_a_manifest_that_says_what_is_not_so_is_told(self):
        self.released()
        manifest = self.read("top/dist/MANIFEST").decode()
        self.write("top/dist/MANIFEST", re.sub("crates .{8}", "crates 01234567", manifest))
        self.assertIn("has other crates than dist/MANIFEST says", self.looked(due=1))
        self.write("top/dist/MANIFEST", manifest)
        self.write("top/CHANGELOG.md", CHANGES)
        self.assertIn("failed: CHANGELOG.md has no head of 0.5.0 with the day", self.looked(due=1))
        self.write("top/dist/MANIFEST", manifest.replace("logic 0123456789abcdef", "logic 1123456789abcdef"))
        self.assertIn("doesn't say that it was proved", self.looked(due=1))

    def test_newer_crates_are_told_by_how_many_commits(self):
        self.released()
        self.write("top/other", "no crate\n")
        self.commit("other")
        self.assertIn("byte for byte", self.looked(self.path("proved")))
        for count, words in ((1, "in 1 commit: a release is due"), (2, "in 2 commits: a release is due")):
            self.write("top/crates/low/src/heap.rt", f"// {count}\n")
            self.commit("newer")
            self.assertEqual(self.looked("built"), f"cbi 0.5.0, sums right; crates/ has changed since, {words} (house/release)")
        _, err = self.call("./install", self.path("here"))
        self.assertIn("cbi 0.5.0, proved by rattle-kit-0 logic 0123456789abcdef; crates/ has changed since, in 2 commits\n", err)
        self.write("top/crates.txt", "low:\ncbi: low\nmore:\n")
        self.assertIn("crates/ has changes here that aren't committed", self.looked("built"))
        self.git("checkout", "-q", ".")
        self.write("top/crates/low/src/heap.rt", "impl Heap {\n    #[inline(always)]\n    pub fn peek(&self) {}\n}\n\n#[inline(never)]\nfn grow() {}\n")
        self.commit("back")
        self.assertIn("byte for byte", self.looked(self.path("proved")))

    def test_other_histories_and_copies_without_one(self):
        self.released()
        self.write("top/crates/low/src/heap.rt", "// new\n")
        shutil.rmtree(self.path("top/.git"))
        self.assertIn("whether crates/ is what it was built from can't be said outside of a git checkout", self.looked("built"))
        # in somebody else's checkout
        subprocess.run(["git", "init", "-q", self.room], check=True)
        self.assertIn("can't be said outside of a git checkout", self.looked("built"))
        self.assertIn("can't be said outside", self.call("./install", self.path("here"))[1])
        shutil.rmtree(self.path(".git"))
        self.git("init", "-q", "-b", "main", ".")
        self.commit("begun anew")
        self.assertRegex(self.looked("built"), r"crates/ is another here, and commit [0-9a-f]{8}, which it was built from, isn't in this history: a release is due")


class Types(unittest.TestCase):
    """The scripts have their types."""

    def test_mypy_finds_nothing(self):
        if not shutil.which("mypy"):
            self.skipTest("there is no mypy here")
        with tempfile.TemporaryDirectory() as room:
            shutil.copy(os.path.join(dist_base.TOP, "checks", "dist"), os.path.join(room, "checks_dist.py"))
            files = [os.path.join(dist_base.TOP, "house", name) for name in ("dist.py", "unproved.py", "release")]
            status, out, err = tell(["mypy", "--strict", "--scripts-are-modules", "--cache-dir", os.path.join(room, "cache"), *files, os.path.join(room, "checks_dist.py")], os.path.join(dist_base.TOP, "house"))
        self.assertEqual(status, 0, out + err)


class Installs(Case):
    """./install, ./demo and ./check, with a release and without one."""

    def test_the_released_executable_is_installed_in_seconds_with_its_scripts(self):
        self.released()
        begun = time.monotonic()
        out, err = self.call("./install", self.path("here"), "--man", self.path("pages"))
        self.assertLess(time.monotonic() - begun, 30)
        self.assertEqual(out, f"{self.path('here/cbi')}\n{self.path('pages/man1/cbi.1')}\n")
        self.assertTrue(err.startswith("./install: cbi 0.5.0, proved by rattle-kit-0 logic 0123456789abcdef; built from crates/ as it is here\n"), err)
        self.assertIn(f"{self.path('here')} isn't on the path: export PATH=", err)
        self.assertEqual(self.read("here/cbi"), self.proved)
        self.assertEqual(self.read("pages/man1/cbi.1"), self.read("top/docs/cbi.1"))
        self.assertEqual([name for name in os.listdir(self.path("here")) if name.startswith(".")], [])
        alone = {"PATH": os.pathsep.join([os.path.dirname(sys.executable), "/usr/bin", "/bin"])}
        self.assertEqual(tell([self.path("here/cbi-hunt"), "--version"], self.room, env=alone)[:2], (0, "cbi-hunt 0.5.0\n"))
        # once more, over what is there, and with the folder on the path
        path = os.pathsep.join([self.path("here"), self.path("bin"), os.path.dirname(sys.executable), "/usr/bin", "/bin"])
        _, err = self.call("./install", self.path("here"), path=path)
        self.assertNotIn("the path", err)
        self.write("bin/cbi", "#!/bin/sh\n", 0o755)
        self.assertIn(f"./install: {self.path('bin/cbi')} comes first on the path, and is another cbi\n", self.call("./install", self.path("here"))[1])

    def test_home_is_where_it_goes_where_no_folder_is_named(self):
        self.released()
        out, _ = self.call("./install")
        self.assertEqual(out, self.path("home/.local/bin/cbi") + "\n")
        self.assertTrue(os.access(self.path("home/.local/bin/cbi-hunt"), os.X_OK))

    def test_without_a_release_it_says_what_to_do_and_leaves_nothing(self):
        out, err = self.call("./install", self.path("here"), due=2)
        self.assertEqual((out, err), ("", "./install: there is no released executable in dist/ yet. With the kit's rt ./build FOLDER --unproved makes one in minutes, without proofs, and ./install --build proves it; README.md says how long each takes\n"))
        self.assertEqual(os.listdir(self.path("here")), [])

    def test_another_machine_is_told(self):
        self.released()
        _, err = self.call("setarch", "i686", "./install", self.path("here"), due=2)
        self.assertIn("the released executable is for x86-64 Linux, and this is i686 Linux", err)

    def test_an_executable_that_is_named_and_one_that_does_not_run(self):
        out, err = self.call("./install", self.path("here"), "--from", self.path("proved"))
        self.assertEqual((out, err, self.read("here/cbi")), (self.path("here/cbi") + "\n", "", self.proved))
        self.write("broken", "#!/bin/sh\nexit 127\n", 0o755)
        _, err = self.call("./install", self.path("here"), f"--from={self.path('broken')}", due=2)
        self.assertIn("the executable doesn't run here", err)
        self.assertEqual(self.read("here/cbi"), self.proved)
        self.assertIn("there is no executable ", self.call("./install", self.path("here"), "--from", self.path("nowhere"), due=2)[1])

    def test_words_that_are_wrong_are_told(self):
        usage = "usage: ./install [FOLDER] [--man FOLDER] [--build | --from FILE]\n"
        for words in (["--what"], ["a", "b"], ["--man"], ["--build", "--from", "x"], ["--help"]):
            self.assertEqual(self.call("./install", *words, due=2), ("", usage), words)
        self.assertIn("there can be no folder", self.call("./install", self.path("gate/under"), due=2)[1])

    def test_build_is_asked_for_by_its_word(self):
        self.write("top/build", "#!/bin/sh\necho built \"$@\"\n", 0o755)
        self.assertEqual(self.call("./install", "--build", "here", "--man", "pages"), ("built here --man pages\n", ""))
        self.write("top/build", "#!/bin/sh\nexit 5\n", 0o755)
        self.call("./demo", "--build", due=5)

    def test_the_demo_takes_the_released_executable(self):
        self.released()
        out, err = self.call("./demo", "page.html")
        self.assertTrue(out.endswith(f"page: {self.path('top/page.html')}\n"), out)
        told = err.splitlines()
        self.assertEqual(told[0], f"./demo: cbi 0.5.0, proved by {KIT}; built from crates/ as it is here")
        self.assertTrue(told[1].startswith(f"./demo: has {self.path('top/dist/out/cbi')} hunt the bug of examples/lookup"), err)
        self.assertEqual(told[-1], "./demo: next: ./install, and then cbi-hunt YOUR.c --inputs FOLDER (docs/HUNTING.md)")
        self.assertIn(b"lookup.c:41", self.read("top/page.html"))
        self.assertEqual(self.git("status", "--porcelain"), "?? page.html\n")

    def test_a_demo_with_a_damaged_release_goes_on_without_it(self):
        self.released()
        self.write("top/dist/cbi.xz", "no archive")
        os.unlink(self.path("bin/rt"))
        _, err = self.call("./demo", due=2)
        self.assertRegex(err, r"^\./demo: dist/cbi\.xz isn't the executable of dist/MANIFEST, [^\n]*\n\./demo: there is no rt on the path; [^\n]*\n$")

    def test_check_looks_at_the_released_executable_where_there_is_no_kit(self):
        for name, path in (("process", "process/run"), ("examples", "examples")):
            self.write("top/checks/" + path, f"#!/bin/sh\necho {name} \"$1\"\n", 0o755)
        self.commit("checks")
        self.released()
        os.unlink(self.path("bin/rt"))
        tool = self.path("top/dist/out/cbi")
        out, _ = self.call("./check")
        self.assertTrue(out.endswith(f"\nprocess {tool}\nexamples {tool}\n"), out)
        self.assertEqual(out.count("\n"), 4)
        self.write("top/checks/process/run", "#!/bin/sh\nexit 1\n", 0o755)
        self.call("./check", due=1)
        self.write("top/crates/low/src/heap.rt", "// new\n")
        self.commit("newer")
        self.assertIn("./check: there is no rt on the path; it asks for the kit\n", self.call("./check", due=2)[1])


if __name__ == "__main__":
    named = sys.argv.pop(1) if len(sys.argv) > 1 and (os.sep in sys.argv[1] or sys.argv[1] == "built") else ""
    dist_base.CBI = os.path.abspath(named) if named not in ("", "built") else dist_base.CBI
    lacking = [word for word in ("git", "xz", "sha256sum", "readelf", "setarch") if not shutil.which(word)]
    if not os.access(dist_base.CBI, os.X_OK):
        print(f"checks/test_dist.py: {'failed, since rt ci left no' if named == 'built' else 'skipped, since there is no'} {dist_base.CBI}")
        sys.exit(named == "built")
    if lacking:
        print(f"checks/test_dist.py: skipped, since there is no {' '.join(lacking)}")
        sys.exit(0)
    unittest.main(verbosity=0)
