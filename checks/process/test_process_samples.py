"""Looks at runs of compiled programs: what they observe with a bank, how they end, and how they are labelled."""
from process_base import MODES, NONE, WORDS, Process

TURNS = 1000000


def told_of(report: bytes, *kinds: bytes) -> bytes:
    """The lines of a report that are of these kinds."""
    return b"".join(line for line in report.splitlines(keepends=True) if line.split(b" ")[0] in kinds)


class Sampled(Process):
    """Runs of sampled programs: which visits of a site a bank has observed, and how many choices and tests were made for it."""

    def compile(self, schemes: str, text: str) -> None:
        self.write("reported.c", text + "\n")
        self.make("reported", "transform", "--mode", "sampled", "--schemes", schemes, "reported.c")

    def look_at_run(self, bank: str, out: str, told: str, given: str = "", turns: int = TURNS, what: str = "") -> None:
        """Looks at the output of a run, and at what its report tells of it."""
        self.write("bank", bank)
        self.write("input", given)
        came, report = self.run_reported("--bank", "bank", "--turns", str(turns), "--input", "input", "reported")
        self.look(came._replace(out=came.out + told_of(report, b"outcome", b"work", b"site")), 0, out + told, None, what)

    def test_a_program_without_sites_makes_no_choice_whatever_the_bank(self) -> None:
        self.compile("branches,returns,pairs", "int main(void){}")
        self.look_at_run("1\n", "", "outcome ended 0\nwork 0 0 0\n", what="each visit")
        self.look_at_run("3\n1\n", "", "outcome ended 0\nwork 0 0 0\n", what="the third and then each")

    def test_a_bank_of_3_and_1_observes_four_of_eight_visits(self) -> None:
        self.compile("branches", "int main(void){int i;for(i=0;i<7;i++);return 0;}")
        self.look_at_run("3\n1\n", "", "outcome ended 0\nwork 4 4 4\nsite 0 3 1 0\n")

    def test_three_visits_in_a_row_are_one_choice(self) -> None:
        self.compile("branches", "int main(void){int a=1;if(a);if(a);if(a);return 0;}")
        self.look_at_run("3\n", "", "outcome ended 0\nwork 0 1 3\nsite 2 1 0 0\n", what="the third is observed")
        self.look_at_run("4\n", "", "outcome ended 0\nwork 1 0 0\n", what="none is observed")

    def test_visits_behind_a_condition_count_where_the_run_comes_to_them(self) -> None:
        self.compile("branches", "int main(void){int c;c=getchar();if(c==48){if(c);if(c);}return 0;}")
        self.look_at_run("2\n", "", "outcome ended 0\nwork 0 1 1\n", given="1", what="one visit, which is not observed")
        self.look_at_run("2\n", "", "outcome ended 0\nwork 0 1 3\nsite 1 1 0 0\n", given="0", what="the second of three")

    def test_visits_are_counted_on_through_calls(self) -> None:
        self.compile("branches", "int f(int n){if(n)return f(n-1);return 0;} int main(void){return f(3);}")
        self.look_at_run("2\n", "", "outcome ended 0\nwork 7 2 2\nsite 0 1 1 0\n")

    def test_functions_without_sites_make_no_choice(self) -> None:
        self.compile(
            "pairs",
            "int odd(int n); int even(int n){return n==0?1:odd(n-1);} int odd(int n){return n==0?0:even(n-1);} int main(void){int x;x=even(4);return x;}",
        )
        self.look_at_run("1\n", "", "outcome ended 1\nwork 0 1 1\nsite 0 1 0 0\n", what="the run that ends")
        self.look_at_run("1\n", "", "outcome cut turns\nwork 0 1 0\n", turns=4, what="the run whose fifth call is cut")

    def test_a_partner_that_is_undefined_is_not_observed(self) -> None:
        self.compile("pairs", "int main(void){int y;int x;x=1;return 0;}")
        self.look_at_run("1\n", "", "outcome ended 0\nwork 0 1 3\nsite 1 0 1 0\nsite 2 0 0 1\n")

    def test_a_run_without_a_turn_is_cut_at_the_first(self) -> None:
        self.compile("branches", "int main(void){while(1)putchar('a');return 0;}")
        self.look_at_run("5\n", "a", "outcome cut turns\nwork 1 0 0\n", turns=0)

    def test_a_division_by_zero_traps(self) -> None:
        self.compile("branches", "int main(void){int a=1;int z=0;if(a);if(a);return 1/z;}")
        self.look_at_run("9\n", "", "outcome trapped 2\nwork 1 0 0\n")

    def test_a_sum_that_is_too_great_traps_after_the_output(self) -> None:
        self.compile("branches", "int main(void){putchar('a');return 2147483647+1;}")
        self.look_at_run("1\n", "a", "outcome trapped 1\nwork 0 0 0\n")


class Labels(Process):
    """Labels by an output that is as expected, and by one that is not."""

    TEXT = '#include <stdio.h>\nint main(void){printf("%u\\n",2147483647u+1u);return 0;}\n'

    def look_at_label(self, wanted: str, label: str) -> None:
        self.write("great.c", self.TEXT)
        self.make("great", "transform", "--mode", "plain", "great.c")
        self.write("want", wanted)
        came, report = self.run_reported("--expect", "want", "great")
        self.look(came, 0, "2147483648\n", NONE, "the run")
        self.look_at("the label", told_of(report, b"label"), label)

    def test_a_run_with_the_expected_output_passes(self) -> None:
        self.look_at_label("2147483648\n", "label pass\n")

    def test_a_run_with_another_output_fails(self) -> None:
        self.look_at_label("2147483647\n", "label fail\n")


class Counting(Process):
    """A program that counts words, in each mode and with two banks."""

    def look_at_words(self, given: str, due: str) -> None:
        self.write("words.c", WORDS)
        self.write("input", given)
        for mode in MODES:
            self.make("words", "transform", "--mode", mode, "words.c")
            for bank in ("1\n", "3\n1\n"):
                self.write("bank", bank)
                came, report = self.run_reported("--bank", "bank", "--input", "input", "words")
                self.look(came._replace(out=came.out + told_of(report, b"outcome")), 0, due, None, f"{mode}, bank {bank.split()}")

    def test_two_words_are_counted(self) -> None:
        self.look_at_words("ab cdef\n", "2 words, mean 3\noutcome ended 0\n")

    def test_a_line_without_a_word_traps_at_the_division(self) -> None:
        self.look_at_words("\n", "outcome trapped 2\n")

    def test_nine_words_trap_behind_the_end_of_the_array(self) -> None:
        self.look_at_words("a b c d e f g h i", "outcome trapped 6\n")
