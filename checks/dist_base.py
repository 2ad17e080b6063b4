"""What the looks at releases share: a small repository with what a release touches, and what stands in for rt."""
import os
import re
import shutil
import subprocess
import sys
import tempfile
import unittest

TOP = os.path.dirname(os.path.dirname(os.path.realpath(__file__)))
CBI = os.path.join(TOP, "crates", "cbi", "out", "cbi")
KIT = "rattle-kit-0 logic 0123456789abcdef"
MARK = b"\0rattle logic=0123456789abcdef0123\0"
GATE = "rt: ok; handles allowed: none\n5 passed, 0 failed\nchecks/examples: 40 passed, 0 failed\n"
CHANGES = """\
# Changes

## 0.5.0, unreleased

### Added

- `one`: a thing.

## 28 November 2026

- Older.
"""
RT = """\
#!/bin/sh
case $1 in
version) echo '{kit}' ;;
ci) cat '{room}/gate' ;;
*) exit 1 ;;
esac
"""


def tell(words, folder, **more):
    """A call: status, out and err."""
    done = subprocess.run(words, cwd=folder, stdin=subprocess.DEVNULL, stdout=subprocess.PIPE, stderr=subprocess.PIPE, check=False, **more)
    return done.returncode, done.stdout.decode(), done.stderr.decode()


class Case(unittest.TestCase):
    """A small repository with what a release touches, in a folder whose name has a blank."""

    def setUp(self):
        self.room = tempfile.mkdtemp(prefix="cbi dist ")
        self.addCleanup(shutil.rmtree, self.room)
        self.top = self.path("top")
        for name in ("install", "build", "demo", "check", "checks/dist", "docs/cbi.1"):
            os.makedirs(os.path.dirname(self.path("top", name)), exist_ok=True)
            shutil.copy(os.path.join(TOP, name), self.path("top", name))
        for name in ("tools", "house", "examples/lookup"):
            shutil.copytree(os.path.join(TOP, name), self.path("top", name), ignore=shutil.ignore_patterns("__pycache__"))
        self.write("top/.gitignore", "out/\n__pycache__/\n")
        self.write("top/CHANGELOG.md", CHANGES)
        self.write("top/crates.txt", "low:\ncbi: low\n")
        self.write("top/crates/cbi/src/main.rt", "fn main() {}\n")
        self.write("top/crates/low/src/heap.rt", "impl Heap {\n    #[inline(always)]\n    pub fn peek(&self) {}\n}\n\n#[inline(never)]\nfn grow() {}\n")
        self.write("gate", GATE)
        # the released one is another file of the same executable: what stands behind its end isn't loaded
        with open(CBI, "rb") as file:
            self.proved = file.read() + MARK
        self.write("proved", self.proved, 0o755)
        self.write("bin/rt", RT.format(kit=KIT, room=self.room), 0o755)
        scripts = self.read("top/tools/cbi_show/files.py").decode()
        self.write("top/tools/cbi_show/files.py", re.sub(r'(?m)^VERSION = ".*"$', 'VERSION = "0.5.0"', scripts))
        self.git("init", "-q", "-b", "main", ".")
        self.commit("first")

    def path(self, *parts):
        return os.path.join(self.room, *parts)

    def write(self, name, text, mode=None):
        os.makedirs(os.path.dirname(self.path(name)), exist_ok=True)
        with open(self.path(name), "wb") as file:
            file.write(text if isinstance(text, bytes) else text.encode())
        if mode:
            os.chmod(self.path(name), mode)
        return self.path(name)

    def read(self, name):
        with open(self.path(name), "rb") as file:
            return file.read()

    def git(self, *words):
        who = ["-c", "user.name=a", "-c", "user.email=a@b", "-c", "commit.gpgsign=false"]
        status, out, err = tell(["git", *who, *words], self.top)
        self.assertEqual(status, 0, err)
        return out

    def commit(self, words):
        self.git("add", "-A")
        self.git("commit", "-q", "-m", words)

    def call(self, *words, due=0, path=None, **more):
        """A command of the repository, with the stand-ins first on the path; out and err."""
        plain = os.pathsep.join([self.path("bin"), os.path.dirname(sys.executable), "/usr/bin", "/bin"])
        given = dict({name: value for name, value in os.environ.items() if not name.startswith("GIT_")}, PATH=path or plain, HOME=self.path("home"), LC_ALL="C.UTF-8", **more)
        status, out, err = tell(words, self.top, env=given)
        self.assertEqual(status, due, f"{words}: {out}{err}")
        self.assertNotIn("Traceback", err)
        return out, err

    def release(self, version="0.5.0", due=0):
        return self.call("house/release", version, "--gate", self.path("gate"), "--executable", self.path("proved"), due=due)

    def released(self):
        """A repository with a release that is committed."""
        self.release()
        self.commit("Release")

    def manifest(self):
        return dict(row.split(" ", 1) for row in self.read("top/dist/MANIFEST").decode().splitlines() if not row.startswith("#"))

    def looked(self, *words, due=0):
        """What checks/dist tells."""
        out, err = self.call("checks/dist", *words, due=due)
        self.assertEqual(err, "")
        self.assertTrue(out.startswith("checks/dist: ") and out.count("\n") == 1, out)
        return out[len("checks/dist: "):-1]
