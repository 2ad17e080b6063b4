"""What the looks at the scripts of tools/ share: calls of them as processes, and folders to call them in."""
import fcntl
import itertools
import os
import pty
import shutil
import signal
import struct
import subprocess
import sys
import tempfile
import termios
import time
import unittest

sys.dont_write_bytecode = True
TOP = os.path.dirname(os.path.dirname(os.path.abspath(__file__)))
TOOLS = os.path.join(TOP, "tools")
HOUSE = os.path.join(TOP, "house")
EXAMPLES = os.path.join(TOP, "examples")
SCRIPTS = ("cbi-hunt", "cbi-show", "cbi-explain", "cbi-port")
# The executable, which test_tools is called with.
CBI = ""


def environment():
    """The environment of a call: the executable and the scripts are on the path."""
    path = os.pathsep.join([os.path.dirname(CBI), TOOLS, os.environ["PATH"]])
    return dict(os.environ, PATH=path, LC_ALL="C.UTF-8", PYTHONDONTWRITEBYTECODE="1", CBI_PROGRESS="0")


def call(*words, given=b"", folder=None, **more):
    """A call with the executable and the scripts on the path: status, out and err."""
    done = subprocess.run(words, input=given, stdout=subprocess.PIPE, stderr=subprocess.PIPE, cwd=folder, env=environment(), check=False, **more)
    return done.returncode, done.stdout.decode(), done.stderr.decode()


def on_terminal(words, folder, columns=80, out=False):
    """A call whose err is a terminal so wide, and out as well where it is said: status, and what comes to the terminal."""
    ours, theirs = pty.openpty()
    fcntl.ioctl(theirs, termios.TIOCSWINSZ, struct.pack("HHHH", 24, columns, 0, 0))
    given = {name: value for name, value in environment().items() if name != "COLUMNS"}
    begun = subprocess.Popen(words, cwd=folder, env=given, stdin=subprocess.DEVNULL, stdout=theirs if out else subprocess.DEVNULL, stderr=theirs)
    os.close(theirs)
    said = b""
    while True:
        try:
            piece = os.read(ours, 1000)
        except OSError:
            break
        if not piece:
            break
        said += piece
    os.close(ours)
    return begun.wait(), said


def sources():
    """The scripts and their modules."""
    for folder, _, names in itertools.chain(os.walk(TOOLS), os.walk(HOUSE)):
        yield from (os.path.join(folder, name) for name in names if name.endswith(".py") or name.startswith("cbi-") or folder == HOUSE and "." not in name)


class Case(unittest.TestCase):
    """A case with a folder of its own, whose name has a blank."""

    def setUp(self):
        self.room = tempfile.mkdtemp(prefix="cbi tools ")
        self.addCleanup(shutil.rmtree, self.room)

    def path(self, *parts):
        return os.path.join(self.room, *parts)

    def write(self, name, text):
        os.makedirs(os.path.dirname(self.path(name)), exist_ok=True)
        with open(self.path(name), "wb") as file:
            file.write(text if isinstance(text, bytes) else text.encode())
        return self.path(name)

    def read(self, name):
        with open(self.path(name), "rb") as file:
            return file.read()

    def call(self, *words, given=b"", due=0):
        """A call in the folder, whose status is looked at; out and err."""
        status, out, err = call(*words, given=given, folder=self.room)
        if due is not None:
            self.assertEqual(status, due, f"{words}: {out}{err}")
        self.assertNotIn("Traceback", err)
        return out, err

    def wait_for(self, come, seconds=60):
        """Waits until it is there, so long at most."""
        limit = time.monotonic() + seconds
        while time.monotonic() < limit and not come():
            time.sleep(0.01)

    def transform(self, text, mode="full", schemes="branches,returns,pairs"):
        """Compiles a text, as the file prog.cbi."""
        self.write("prog.c", text)
        out, _ = self.call("cbi", "transform", "--mode", mode, "--schemes", schemes, "prog.c")
        return self.write("prog.cbi", out)


def heed_interrupts():
    """Has a process heed ^C, which one that begins in the background of a shell script ignores, and a line that hangs up, which one under nohup ignores."""
    signal.signal(signal.SIGINT, signal.SIG_DFL)
    signal.signal(signal.SIGHUP, signal.SIG_DFL)


# It gives `a` where it should give `A`, and crashes at `!`.
UPPER = """\
#include <stdio.h>
#include <stdlib.h>
int main(void)
{
    int c;
    while ((c = getchar()) != EOF) {
        if (c == '!')
            abort();
        if (c > 'a' && c <= 'z')
            c -= 32;
        putchar(c);
    }
    return 0;
}
"""


class Hunting(Case):
    """A case with a program that has a bug, and with inputs for it."""

    def setUp(self):
        super().setUp()
        self.write("upper.c", UPPER)
        words = ["bcd", "xyz", "abc", "q", "zza", "mno", "klm", "b", "caa", "fgh", "w", "rst"]
        for number, word in enumerate(words):
            self.write(f"in puts/{number:02} {word}", word)
            self.write(f"due/{number:02} {word}", word.upper())
            self.write(f"both/{number:02}", word)
            self.write(f"both/{number:02}.expected", word.upper())
        self.write("lines", "".join(word + "\n" for word in words))
        self.write("due lines", "".join(word.upper() + "\n" for word in words))
        self.write("judge.py", "import sys\ninput, output = [open(name).read() for name in sys.argv[1:]]\nsys.exit(0 if output == input.upper() else 3)\n")

    def more_inputs(self):
        """Three times as many inputs, of which nine fail: so many that a fact of these is beyond chance."""
        for letter, behind in (("x", 12), ("y", 24)):
            for name in [name for name in sorted(os.listdir(self.path("in puts"))) if int(name[:2]) < 12]:
                number, word = int(name[:2]) + behind, name[3:] + letter
                self.write(f"in puts/{number} {word}", word)
                self.write(f"due/{number} {word}", word.upper())
                self.write(f"both/{number}", word)
                self.write(f"both/{number}.expected", word.upper())

    def hunt(self, *words, due=0):
        """A hunt, whose status is looked at unless it may be any; what it says, or where it is to fail what it is refused for."""
        out, err = self.call("cbi-hunt", "upper.c", "--jobs", "1", *words, due=due)
        return err if due == 2 else out
