"""Looks at runs by a list, beside the calls of `bank`, `run` and `collect` that come to the same."""
import os
import subprocess
from typing import Dict, List, NamedTuple, Optional, Tuple

from process_base import HEADER, NONE, TOP, Ended, Looks, Process

EXAMPLES = os.path.join(TOP, "examples")
SOURCES = ("editor/editor.c", "greatest/greatest.c", "longest/longest.c", "lookup/lookup.c", "orders/orders.c", "till/till.c", "ported/stock_ported.c")
# How many inputs of each example are tried at once.
SOME = 20
# The most sites that the lines of watchers name.
SHOWN = 16
# It writes each byte of its input, and has one site, which it comes to once for each byte and once at the end.
ECHOES = "#include <stdio.h>\nint main(void){int c;while((c=getchar())!=EOF)putchar(c);return 0;}\n"


class Way(NamedTuple):
    """How the runs of a program are made."""

    mode: str
    schemes: str
    rate: int
    seed: int
    first: int
    turns: int


# A pair whose partner is undefined is told to the watchers, and counted nowhere: so the counters say how often each site was observed where there are no pairs.
WAYS = (
    Way("sampled", "branches,returns,pairs", 5, 7, 1, 1000000),
    Way("sampled", "branches,returns", 100, 42, 4294967200, 60),
    Way("full", "branches,returns", 1, 18446744073709551615, 99, 30),
)


class Told(NamedTuple):
    """What calls come to that make the runs one by one: the collection, and what err is to be told of it."""

    collection: bytes
    err: str


def seen_in(err: bytes, watcher: str) -> List[int]:
    """The numbers in the line of a watcher, none where it has seen nothing."""
    words = next(line.split() for line in err.decode("ascii").splitlines() if line.startswith(watcher + " "))
    return [] if words[1:] == ["none"] else [int(word) for word in words[1:]]


def hottest_in(collection: bytes) -> str:
    """The line of the site with the most observations by a collection's counters, the smallest among equals."""
    sums: Dict[int, int] = {}
    for line in collection.decode("ascii").splitlines():
        words = line.split()
        if words[0] == "site":
            sums[int(words[1])] = sums.get(int(words[1]), 0) + sum(map(int, words[2:]))
    if not sums:
        return "hottest none\n"
    site = min(sums, key=lambda it: (-sums[it], it))
    return f"hottest {site} {sums[site]}\n"


def line_of(watcher: str, sites: List[int]) -> str:
    return " ".join([watcher, *(map(str, sites) if sites else ["none"])]) + "\n"


class Listed(Process):
    """Calls of `runs`."""

    def write_list(self, name: str, files: List[str]) -> None:
        self.write(name, "".join(file + "\n" for file in files))

    def echo(self) -> None:
        """Makes the program `echoes`."""
        self.write("echoes.c", ECHOES)
        self.make("echoes", "transform", "--mode", "full", "--schemes", "branches", "echoes.c")

    def runs(self, *words: str, given: Optional[str] = None) -> Ended:
        """Calls `runs` on `list` at rate 1."""
        return self.call("runs", "--inputs", "list", "--rate", "1", "--seed", "7", *words, given=given)


class Examples(Listed):
    """The runs of the examples: the same bytes as by calls."""

    def inputs_of(self, source: str) -> Tuple[List[str], List[str]]:
        """Writes a file for each of some lines of an example's inputs, and one for what the output is to be, where that is written down."""
        names: Tuple[List[str], List[str]] = ([], [])
        for to, kind in zip(names, ("inputs", "expected")):
            path = os.path.join(EXAMPLES, os.path.dirname(source), kind)
            if os.path.exists(path):
                with open(path, "rb") as file:
                    lines = file.read().splitlines(keepends=True)[:SOME]
                for number, line in enumerate(lines):
                    to.append(f"{kind} {number}")
                    self.write(to[-1], line)
        if not names[0]:
            self.write("inputs 0", "")
            names[0].append("inputs 0")
        return names

    def by_calls(self, way: Way, inputs: List[str], expected: List[str]) -> Told:
        """Makes the runs one after another."""
        reports, first_seen, last_seen, labels = [], [], [], []
        for number, name in enumerate(inputs):
            run = str(way.first + number)
            self.make("bank", "bank", "--rate", str(way.rate), "--count", "256", "--seed", str(way.seed), "--stream", run)
            words = ["--expect", expected[number]] if expected else []
            reports.append(f"report {run}")
            came = self.call("run", "--bank", "bank", "--input", name, *words, "--run", run, "--turns", str(way.turns), "--report", reports[-1], "prog")
            self.assertEqual(came.status, 0, came.err)
            first_seen += [site for site in seen_in(came.err, "first") if site not in first_seen]
            last_seen += seen_in(came.err, "last")
            labels += [line for line in self.read(reports[-1]).splitlines() if line.startswith(b"label ")]
        collection = self.call("collect", "--program", "prog", *reports).out
        failed, succeeded = labels.count(b"label fail"), labels.count(b"label pass")
        hottest = "" if "pairs" in way.schemes else hottest_in(collection)
        told = line_of("first", first_seen[:SHOWN]) + hottest + line_of("last", last_seen[-SHOWN:])
        return Told(collection, told + f"runs {len(inputs)} failed {failed} succeeded {succeeded} neither {len(labels) - failed - succeeded}\n")

    def look_alike(self, way: Way, inputs: List[str], expected: List[str], what: str) -> None:
        self.write_list("list", inputs)
        self.write_list("wanted", expected)
        words = ["--expect", "wanted"] if expected else []
        how = ("--rate", str(way.rate), "--seed", str(way.seed), "--first", str(way.first), "--turns", str(way.turns))
        due = self.by_calls(way, inputs, expected)
        self.assertEqual(due.collection.count(b"\nrun "), len(inputs))
        came = self.call("runs", "--inputs", "list", *words, *how, "prog")
        if "pairs" in way.schemes:
            came = came._replace(err=b"".join(line for line in came.err.splitlines(keepends=True) if not line.startswith(b"hottest ")))
        self.look(came, 0, due.collection, due.err, what)

    def test_runs_of_the_examples_are_those_of_calls_of_bank_run_and_collect(self) -> None:
        for source in SOURCES:
            with open(os.path.join(EXAMPLES, source), "rb") as file:
                self.write("prog.c", file.read())
            inputs, expected = self.inputs_of(source)
            for way in WAYS:
                self.make("prog", "transform", "--mode", way.mode, "--schemes", way.schemes, "prog.c")
                what = f"{source}, {way.mode}, at rate {way.rate}"
                self.look_alike(way, inputs, [], what)
                if expected:
                    self.look_alike(way, inputs, expected, what + ", with expected outputs")

    def test_a_run_is_labelled_by_the_expected_file_on_its_own_line(self) -> None:
        self.echo()
        for name in ("a", "b", "c"):
            self.write(name, name)
        self.write("prog", self.read("echoes"))
        self.look_alike(Way("full", "branches", 1, 7, 1, 100), ["a", "b", "c"], ["a", "c", "b"], "the second and the third fail")
        self.write_list("list", ["a", "b", "c"])
        self.write_list("wanted", ["a", "c", "c"])
        came = self.runs("--expect", "wanted", "echoes")
        labels = [line.split()[5] for line in came.out.splitlines() if line.startswith(b"run ")]
        self.look_at("labels", b" ".join(labels), "pass fail pass")

    def test_a_collection_of_runs_is_ranked(self) -> None:
        self.echo()
        self.write("a", "a")
        self.write_list("list", ["a", "a"])
        self.make("runs", "runs", "--inputs", "list", "--rate", "1", "--seed", "7", "echoes")
        self.look(self.call("rank", "echoes", "runs"), 0, HEADER, "")


class Watchers(Listed):
    """What the watchers are told of all runs."""

    def test_watchers_are_told_of_all_runs_in_order(self) -> None:
        self.echo()
        self.write("one", "a" * 9)
        self.write("two", "a" * 9)
        self.write_list("list", ["one", "two", "one"])
        came = self.runs("echoes")
        last = " ".join(["last"] + ["0"] * SHOWN)
        self.look(came, 0, None, f"first 0\nhottest 0 30\n{last}\nruns 3 failed 0 succeeded 3 neither 0\n")

    def test_watchers_of_runs_without_sites_are_told_nothing(self) -> None:
        self.write("in", "")
        self.write_list("list", ["in", "in"])
        due = f"cbi-collection 2\nprogram {self.identity('first')}\nrun 1 ended 0 label pass work 0 0 0\nrun 2 ended 0 label pass work 0 0 0\nend\n"
        self.look(self.runs("first"), 0, due, NONE + "runs 2 failed 0 succeeded 2 neither 0\n")


class Names(Listed):
    """Names of lists, and names in lists."""

    def setUp(self) -> None:
        super().setUp()
        self.echo()
        self.write("in", "ab")
        self.write_list("list", ["in", "in"])

    def collection(self, *lengths: int) -> str:
        """The collection of runs on inputs of these many bytes."""
        runs = "".join(f"run {number} ended 0 label pass work 0 0 0\nsite 0 {length} 1 0\n" for number, length in enumerate(lengths, 1))
        return f"cbi-collection 2\nprogram {self.identity('echoes')}\n{runs}end\n"

    def test_a_list_on_standard_input(self) -> None:
        came = self.call("runs", "--inputs", "-", "--rate", "1", "--seed", "7", "echoes", given="list")
        self.look(came, 0, self.collection(2, 2), None)

    def test_an_input_on_standard_input(self) -> None:
        self.write_list("list", ["in", "-", "in"])
        self.look(self.runs("echoes", given="list"), 0, self.collection(2, 8, 2), None)

    def test_standard_input_is_read_once(self) -> None:
        self.write_list("list", ["-", "in", "-"])
        self.look(self.runs("echoes", given="in"), 0, self.collection(2, 2, 0), None, "twice in a list")
        self.write_list("list", ["in", "-"])
        came = self.call("runs", "--inputs", "-", "--rate", "1", "--seed", "7", "echoes", given="list")
        self.look(came, 0, self.collection(2, 0), None, "as the list and in it")

    def test_names_are_bytes_of_utf_8_up_to_255(self) -> None:
        for name in ("caf\u00e9 au lait", "x" * 255, "./././in", " in", "in\r"):
            with open(self.path(name), "wb") as file:
                file.write(b"abc")
        lines = ("caf\u00e9 au lait", "x" * 255, "./././in", " in", "in\r")
        self.write("list", "".join(name + "\n" for name in lines).encode())
        self.look(self.runs("echoes"), 0, self.collection(3, 3, 3, 3, 3), None)

    def test_an_input_that_is_missing_is_told_by_its_name_and_nothing_is_out(self) -> None:
        self.write_list("list", ["in", "in", "gone", "in"])
        self.look(self.runs("echoes"), 3, "", "cbi: read fault gone\n", "the third")
        self.write_list("list", ["in", "lost", "gone"])
        self.look(self.runs("echoes"), 3, "", "cbi: read fault lost\n", "the first of two")

    def test_the_input_of_a_line_is_read_before_its_fellow_and_both_before_the_next_line(self) -> None:
        self.write_list("wanted", ["in", "lost"])
        self.write_list("list", ["in", "gone"])
        self.look(self.runs("--expect", "wanted", "echoes"), 3, "", "cbi: read fault gone\n", "both of a line are missing")
        self.write_list("wanted", ["lost", "in"])
        self.look(self.runs("--expect", "wanted", "echoes"), 3, "", "cbi: read fault lost\n", "the fellow of the line before is missing")

    def test_the_files_of_the_words_are_read_in_their_order(self) -> None:
        how = ("--rate", "1", "--seed", "7")
        self.look(self.call("runs", "--inputs", "no list", "--expect", "no other", *how, "no program"), 3, "", "cbi: read fault no program\n", "the program")
        self.look(self.call("runs", "--inputs", "no list", "--expect", "no other", *how, "echoes"), 3, "", "cbi: read fault no list\n", "the list")
        self.look(self.call("runs", "--inputs", "list", "--expect", "no other", *how, "echoes"), 3, "", "cbi: read fault no other\n", "the other list")


class Refused(Listed):
    """Lists and inputs that are refused."""

    def setUp(self) -> None:
        super().setUp()
        self.echo()
        self.write("in", "ab")

    def look_bad(self, file: int, line: int, inputs: bytes, expected: Optional[bytes] = None, what: str = "") -> None:
        self.write("list", inputs)
        self.write("wanted", expected or b"")
        words = [] if expected is None else ["--expect", "wanted"]
        self.look(self.runs(*words, "echoes"), 5, "", f"cbi: refusal 33 BadList file {file} line {line}\n", what)

    def test_a_list_that_is_none_is_refused_with_its_first_bad_line(self) -> None:
        self.look_bad(1, 1, b"", what="no line")
        self.look_bad(1, 1, b"in", what="no newline")
        self.look_bad(1, 2, b"in\n\nin\n", what="an empty line")
        self.look_bad(1, 2, b"in\ni\0n\n", what="NUL")
        self.look_bad(1, 3, b"in\nin\n\xff\n", what="no UTF-8")
        self.look_bad(1, 2, b"in\n" + b"x" * 4096 + b"\n", what="a name of 4,096 bytes")
        self.look_bad(1, 100001, b"in\n" * 100001, what="100,001 lines")

    def test_a_name_of_4095_bytes_is_one(self) -> None:
        self.write("list", "./" * 2047 + "g\n")
        self.look(self.runs("echoes"), 3, "", "cbi: read fault " + "./" * 2047 + "g\n")

    def test_the_other_list_is_refused_in_the_same_way(self) -> None:
        self.look_bad(2, 1, b"in\n", b"", "no line")
        self.look_bad(2, 2, b"in\nin\n", b"in\nin", "no newline")
        self.look_bad(2, 1, b"in\nin\n", b"\xc3\nin\n", "no UTF-8")
        self.look_bad(1, 1, b"\n", b"\n", "both")

    def test_lists_of_unequal_lengths_are_refused_at_the_first_line_without_a_fellow(self) -> None:
        self.look_bad(1, 2, b"in\ngone\nlost\n", b"in\n", "more inputs")
        self.look_bad(2, 3, b"in\nin\n", b"in\nin\nin\nin\n", "fewer inputs")

    def test_no_run_has_a_number_past_the_greatest(self) -> None:
        self.write("list", "in\nin\n")
        self.look(self.runs("--first", "4294967295", "echoes"), 5, "", "cbi: refusal 33 BadList file 1 line 2\n")
        came = self.runs("--first", "4294967294", "echoes")
        with self.counted("the last two"):
            self.assertEqual(came.status, 0)
            self.assertIn(b"\nrun 4294967294 ended 0 label pass work 0 0 0\n", came.out)
            self.assertIn(b"\nrun 4294967295 ended 0 label pass work 0 0 0\n", came.out)

    def test_an_input_of_a_byte_too_many_is_refused_with_its_line(self) -> None:
        with open(self.path("large"), "wb") as file:
            file.truncate(16777217)
        self.write("list", "in\nin\nlarge\nin\n")
        self.look(self.runs("echoes"), 5, "", "cbi: refusal 28 InputTooLarge line 3\n", "a byte too many")
        self.write("list", "large\ngone\n")
        self.look(self.runs("echoes"), 5, "", "cbi: refusal 28 InputTooLarge line 1\n", "before an input that is missing")
        self.write("list", "gone\nlarge\n")
        self.look(self.runs("echoes"), 3, "", "cbi: read fault gone\n", "behind an input that is missing")
        os.truncate(self.path("large"), 16777216)
        self.write("list", "large\n")
        self.look(self.runs("first"), 0, None, NONE + "runs 1 failed 0 succeeded 1 neither 0\n", "as many as there may be")

    def test_a_program_is_refused_before_the_lists(self) -> None:
        self.write("list", "")
        self.look(self.runs("list"), 5, "", "cbi: refusal 20 BadProgram line 1\n")


class Room(Listed):
    """The memory of many runs."""

    def megabytes(self, lines: int, *more: str) -> float:
        """The most memory of as many runs of `first` on inputs of 1 MB, which end well; no less than what this process had as it began the call."""
        self.write("list", "large\n" * lines)
        words = [Looks.cbi, "runs", "--inputs", "list", *more, "--rate", "1", "--seed", "7", "first"]
        with subprocess.Popen(words, cwd=self.room, stdin=subprocess.DEVNULL, stdout=subprocess.DEVNULL, stderr=subprocess.DEVNULL) as child:
            _, status, used = os.wait4(child.pid, 0)
            child.returncode = -os.WTERMSIG(status) if os.WIFSIGNALED(status) else os.WEXITSTATUS(status)
        self.assertEqual(child.returncode, 0)
        return float(used.ru_maxrss) / 1024

    def look_at_room(self, lines: int, *more: str) -> None:
        one, many = self.megabytes(1, *more), self.megabytes(lines, *more)
        with self.counted():
            self.assertLess(many, 3 * one, f"{one:.1f} MB for one run, {many:.1f} MB for {lines}")

    def test_inputs_are_let_go_of_behind_their_runs(self) -> None:
        self.write("large", b"a" * 1000000)
        self.look_at_room(2000)

    def test_so_are_the_files_that_outputs_are_to_equal(self) -> None:
        self.write("large", b"a" * 1000000)
        self.look_at_room(200, "--expect", "list")
