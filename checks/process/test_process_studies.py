"""Looks at studies of a text, and at the best pair over many runs."""
import re

from process_base import HEADER, NONE, SIX, WORDS, Ended, Process


class Studies(Process):
    def study(self, text: str, runs: int, rate: int, turns: int, *words: str) -> Ended:
        self.write("text.c", text)
        how = ("--runs", str(runs), "--seed", "7", "--rate", str(rate), "--turns", str(turns))
        return self.call("study", *how, *words, "text.c")

    def test_a_study_of_a_text_without_sites_has_no_leader(self) -> None:
        came = self.study("int main(void){abort();}\n", 3, 1, 10)
        self.look(came, 0, HEADER + "study runs 3 failed 3 ended 0 cut 0 fast 0 slow 0 tests 0\n", NONE)

    def test_a_study_of_a_text_on_standard_input_observes_its_six_sites_in_each_run(self) -> None:
        self.write("six.c", SIX)
        came = self.call("study", "--runs", "2", "--seed", "7", "--rate", "1", "--turns", "10", "-", given="six.c")
        due = HEADER + "study runs 2 failed 2 ended 0 cut 0 fast 0 slow 2 tests 12\n"
        self.look(came, 0, due, "first 0 1 2 3 4 5\nhottest 0 2\nlast 0 1 2 3 4 5 0 1 2 3 4 5\n")

    def test_runs_that_are_cut_neither_fail_nor_end(self) -> None:
        came = self.study("int main(void){while(1);}\n", 2, 1, 10, "--policy", "failing")
        due = HEADER + "study runs 2 failed 0 ended 0 cut 2 fast 0 slow 22 tests 22\n"
        self.look(came, 0, due, "first 0\nhottest 0 22\nlast 0 0 0 0 0 0 0 0 0 0 0 0 0 0 0 0\n")

    def test_the_work_of_a_study_is_that_of_runs_of_the_file_that_sampled_mode_writes(self) -> None:
        text = "int main(void){int i;int s=0;for(i=0;i<50;i++)if(i%3)s+=i;return s;}\n"
        self.write("sums.c", text)
        self.make("sums", "transform", "--mode", "sampled", "sums.c")
        fast = slow = tests = 0
        for run in ("1", "2", "3"):
            self.make("bank", "bank", "--rate", "10", "--count", "256", "--seed", "7", "--stream", run)
            self.make("out", "run", "--bank", "bank", "--turns", "1000", "--report", "report", "sums")
            work = next(line.split() for line in self.read("report").splitlines() if line.startswith(b"work "))
            fast, slow, tests = fast + int(work[1]), slow + int(work[2]), tests + int(work[3])
        came = self.study(text, 3, 10, 1000)
        last = b"".join(came.out.splitlines(keepends=True)[-1:])
        self.look(came._replace(out=last), 0, f"study runs 3 failed 0 ended 3 cut 0 fast {fast} slow {slow} tests {tests}\n", None)

    def test_a_study_of_500_runs_is_the_same_twice(self) -> None:
        once = self.study(WORDS, 500, 10, 100000)
        again = self.study(WORDS, 500, 10, 100000)
        self.look(again, 0, once.out, once.err)

    def test_a_study_of_a_text_that_is_refused_is_refused(self) -> None:
        self.look(self.study("int main(void){return x;}\n", 2, 1, 10), 5, "", "cbi: refusal 15 BadType kind 1 line 1\n")


class Hundred(Process):
    """A hundred sampled runs of a program that counts words: those without a word trap, and those of more than eight."""

    def test_the_best_pair_over_a_hundred_runs_is_the_same_twice(self) -> None:
        self.write("words.c", WORDS)
        self.make("words", "transform", "--mode", "sampled", "words.c")
        reports = []
        for run in range(1, 101):
            self.make("bank", "bank", "--rate", "10", "--count", "256", "--seed", str(run))
            self.write("input", "".join(f"{number}\n" for number in range(1, run % 12 + 1)))
            self.make("out", "run", "--bank", "bank", "--input", "input", "--run", str(run), "--report", f"report{run}", "words")
            reports.append(f"report{run}")
        self.make("runs", "collect", "--program", "words", *reports)
        once = self.call("pairs", "words", "runs")
        self.look(self.call("pairs", "words", "runs"), 0, once.out, None, "the same bytes")
        with self.counted("there is a pair"):
            self.assertRegex(once.out.decode("ascii"), re.compile(r"^best [0-9]+ [0-9]+ ", re.MULTILINE))
