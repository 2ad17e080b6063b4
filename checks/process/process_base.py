"""What the looks at the process share: a folder for each test, calls of the executable in it, and looks, which are counted."""
import contextlib
import hashlib
import os
import shutil
import subprocess
import sys
import tempfile
import unittest
from typing import Iterator, NamedTuple, Optional, Tuple, Union

sys.dont_write_bytecode = True
TOP = os.path.dirname(os.path.dirname(os.path.dirname(os.path.abspath(__file__))))
DATA = os.path.join(TOP, "crates", "cbi", "data")
HEADER = "rank,predicate,scheme,function,line,text,f,s,fobs,sobs,failure,context,increase,importance\n"
# What err is told of a run without an observation.
NONE = "first none\nhottest none\nlast none\n"
MODES = ("plain", "full", "sampled")
HAS_FULL = os.path.exists("/dev/full")

Text = Union[str, bytes]

# Edits with a ranking of one run, and one of none.
EDITS = "cbi-edits 1\nadd run 3 ended 0 label pass work 0 0 0\nrank\nremove 3\nrank\nend\n"

# A text with six sites. Its run comes to each of them once, and then divides by zero.
SIX = "int main(void){int a=1;int z=0;if(a);return a/z;}\n"

# It counts words. An input without a word has it divide by zero, and one of more than eight has it store behind the end of an array.
WORDS = r"""#include <stdio.h>
#define MAX 8
int len[MAX];
int total(int n)
{
    int i, sum = 0;
    for (i = 0; i < n; i++)
        sum += len[i];
    return sum;
}
int main(void)
{
    int c, n = 0, in = 0;
    while ((c = getchar()) != EOF) {
        if (c > ' ') {
            if (!in) { n++; in = 1; len[n - 1] = 0; }
            len[n - 1]++;
        } else
            in = 0;
    }
    printf("%d words, mean %d\n", n, total(n) / n);
    return 0;
}
"""

# A program file with three sites, which a run comes to once each.
THREE = """\
cbi-program 1
texts 0
globals 0
functions 1
function main value 0 0 8
main 0
sites 3
site branch 0 1 0 if
site branch 0 1 1 if
site branch 0 1 2 if
locals
push i 1 1
choose 3 2 2
test 0 3
test 1 4
test 2 5
drop 6
push i 0 7
return
end
"""


class Ended(NamedTuple):
    """How a call ended, and what it wrote."""

    status: int
    out: bytes
    err: bytes


class Looks:
    """The executable, and how many looks at it there were and how many of them passed."""

    cbi = ""
    made = 0
    passed = 0


def bytes_of(text: Text) -> bytes:
    return text if isinstance(text, bytes) else text.encode("ascii")


def compare(what: str, came: Text, due: Text) -> None:
    """Fails where the bytes are others, and shows the first of both."""
    left, right = bytes_of(came), bytes_of(due)
    if left != right:
        at = next((k for k, (one, other) in enumerate(zip(left, right)) if one != other), min(len(left), len(right)))
        raise AssertionError(f"{what} has other bytes from byte {at} on: {left[:500]!r} came, and due is {right[:500]!r}")


class Process(unittest.TestCase):
    """A test with a folder of its own, in which the executable is called; the program files `first` and `upper` are there."""

    def setUp(self) -> None:
        self.room = tempfile.mkdtemp(prefix="cbi-process-")
        self.addCleanup(shutil.rmtree, self.room)
        for name in ("first", "upper"):
            shutil.copy(os.path.join(DATA, name), self.room)

    def path(self, name: str) -> str:
        return os.path.join(self.room, name)

    def write(self, name: str, text: Text) -> None:
        with open(self.path(name), "wb") as file:
            file.write(bytes_of(text))

    def read(self, name: str) -> bytes:
        with open(self.path(name), "rb") as file:
            return file.read()

    def identity(self, name: str) -> str:
        """The SHA-256 of a file's bytes, as sixty-four digits."""
        return hashlib.sha256(self.read(name)).hexdigest()

    def call(self, *words: str, given: Optional[str] = None) -> Ended:
        """Calls the executable with these words, and with a file as standard input where one is given."""
        with open(self.path(given) if given else os.devnull, "rb") as file:
            done = subprocess.run([Looks.cbi, *words], stdin=file, stdout=subprocess.PIPE, stderr=subprocess.PIPE, cwd=self.room, check=False)
        return Ended(done.returncode, done.stdout, done.stderr)

    def run_reported(self, *words: str) -> Tuple[Ended, bytes]:
        """Calls `run` with these words and a report, and answers the report too, which is empty where none was left."""
        if os.path.exists(self.path("report")):
            os.remove(self.path("report"))
        came = self.call("run", "--report", "report", *words)
        return came, self.read("report") if os.path.exists(self.path("report")) else b""

    def call_with(self, streams: str, *words: str) -> Ended:
        """The same with streams that a shell redirects, such as `>&-`."""
        shell = ["sh", "-c", f'exec "$0" "$@" {streams}', Looks.cbi, *words]
        done = subprocess.run(shell, stdin=subprocess.DEVNULL, stdout=subprocess.PIPE, stderr=subprocess.PIPE, cwd=self.room, check=False)
        return Ended(done.returncode, done.stdout, done.stderr)

    def make(self, name: str, *words: str) -> None:
        """Has a file hold what a call writes, which must pass."""
        came = self.call(*words)
        self.assertEqual(came.status, 0, f"{words}: {came.err[:500]!r}")
        self.write(name, came.out)

    @contextlib.contextmanager
    def counted(self, what: str = "") -> Iterator[None]:
        """A look: it is counted, and where it fails the test goes on."""
        Looks.made += 1
        with self.subTest(what) if what else self.subTest():
            yield
            Looks.passed += 1

    def look(self, came: Ended, status: int, out: Optional[Text], err: Optional[Text], what: str = "") -> None:
        """Looks whether a call ended with this status, and wrote these bytes; None stands for what isn't looked at here."""
        with self.counted(what):
            self.assertEqual(came.status, status, f"another status; err has {came.err[:500]!r}")
            if out is not None:
                compare("out", came.out, out)
            if err is not None:
                compare("err", came.err, err)

    def look_at(self, what: str, came: Text, due: Text) -> None:
        """Looks whether bytes are those that are due."""
        with self.counted(what):
            compare(what, came, due)

    def collect_two(self) -> None:
        """Makes two reports of runs of `first`, as `report` and `second`, and the collection of both, as `runs`."""
        self.make("report_out", "run", "--report", "report", "--run", "5", "first")
        self.make("second_out", "run", "--report", "second", "--run", "3", "first")
        self.make("runs", "collect", "--program", "first", "report", "second", "report")
