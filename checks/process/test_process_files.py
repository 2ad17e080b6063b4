"""Looks at words, at files that are missing or damaged, and at runs of program files."""
from process_base import NONE, SIX, THREE, Process

COMMANDS = ("transform", "run", "bank", "collect", "runs", "rank", "pairs", "lines", "bugs", "cards", "session", "widen", "study")


class Words(Process):
    """Words that are no command, or have a value that is wrong."""

    def usage(self) -> str:
        """What err is told of words that are no command: a text of its own, with one newline at its end."""
        return self.call().err.decode("ascii").rstrip("\n") + "\n"

    def test_a_call_without_a_word_is_told_the_usage(self) -> None:
        self.look(self.call(), 2, "", self.usage())

    def test_the_usage_says_that_it_is_one_and_names_each_command(self) -> None:
        with self.counted():
            self.assertIn("Usage: cbi [COMMAND]\n", self.usage())
            first_words = [line.split()[0] for line in self.usage().splitlines() if line.startswith("  ")]
            self.assertEqual(sorted(first_words), sorted(COMMANDS))

    def test_a_word_that_is_no_command_is_told_the_same_usage(self) -> None:
        self.look(self.call("walk", "first"), 2, "", self.usage())

    def test_a_number_that_is_spelled_wrong_is_told_with_its_option(self) -> None:
        self.look(self.call("run", "--turns", "01", "first"), 2, "", "cbi: bad value of --turns\n")

    def test_a_policy_that_is_none_is_told_with_its_option(self) -> None:
        self.collect_two()
        self.look(self.call("rank", "--policy", "some", "first", "runs"), 2, "", "cbi: bad value of --policy\n")

    def test_a_number_of_lines_or_bugs_out_of_bounds_is_told_with_its_option(self) -> None:
        self.collect_two()
        for command, option, *numbers in (
            ("lines", "--most", "0", "1001"), ("lines", "--apart", "101", "-1"), ("bugs", "--most", "0", "1001"), ("bugs", "--also", "0", "101"),
        ):
            for number in numbers:
                self.look(self.call(command, f"{option}={number}", "first", "runs"), 2, "", f"cbi: bad value of {option}\n", f"{command} {option}={number}")

    def test_numbers_of_lines_and_bugs_at_their_bounds_are_taken(self) -> None:
        self.collect_two()
        for words in (("--most", "1", "--apart", "0"), ("--most", "1000", "--apart", "100")):
            self.look(self.call("lines", *words, "first", "runs"), 0, "lines 0 2 0\nend\n", "", " ".join(words))
        for words in (("--most", "1", "--also", "1"), ("--most", "1000", "--also", "100")):
            self.look(self.call("bugs", *words, "first", "runs"), 0, "bugs 0 2\nrest 0\nend\n", "", " ".join(words))

    def test_a_study_of_no_runs_is_told_with_its_option(self) -> None:
        self.write("six.c", SIX)
        came = self.call("study", "--runs", "0", "--seed", "7", "--rate", "1", "--turns", "10", "six.c")
        self.look(came, 2, "", "cbi: bad value of --runs\n")


class Missing(Process):
    """Files that are not there: the first of them in the order of reading is told, and out has nothing."""

    def look_missing(self, name: str, *words: str) -> None:
        self.look(self.call(*words), 3, "", f"cbi: read fault {name}\n")

    def test_the_empty_name_is_a_read_fault(self) -> None:
        self.look_missing("", "run", "")

    def test_a_program_that_is_missing_is_a_read_fault(self) -> None:
        self.look_missing("missing", "run", "missing")

    def test_an_input_that_is_missing_is_a_read_fault(self) -> None:
        self.look_missing("missing", "run", "--input", "missing", "first")

    def test_a_bank_that_is_missing_is_a_read_fault(self) -> None:
        self.look_missing("missing", "run", "--bank", "missing", "first")

    def test_the_bank_is_read_before_the_input(self) -> None:
        self.look_missing("missing", "run", "--input", "other", "--bank", "missing", "first")

    def test_the_program_is_read_before_the_input(self) -> None:
        self.look_missing("gone", "run", "--input", "other", "gone")

    def test_the_first_of_two_reports_that_are_missing_is_told(self) -> None:
        self.look_missing("missing", "collect", "--program", "first", "missing", "other")

    def test_the_program_is_read_before_the_collection(self) -> None:
        for command in ("rank", "lines", "bugs"):
            self.look_missing("missing", command, "missing", "other")

    def test_a_folder_in_place_of_a_file_is_a_read_fault(self) -> None:
        self.look_missing(".", "run", ".")

    def test_a_text_that_is_missing_is_a_read_fault(self) -> None:
        self.look_missing("missing.c", "transform", "--mode", "plain", "missing.c")

    def test_the_text_of_a_study_that_is_missing_is_a_read_fault(self) -> None:
        self.look_missing("missing.c", "study", "--runs", "2", "--seed", "7", "--rate", "1", "--turns", "10", "missing.c")


class Runs(Process):
    """Runs of program files, and program files that are damaged."""

    def setUp(self) -> None:
        super().setUp()
        self.write("bytes", b"hi \x01\x7f\x80\xff z")

    def test_a_program_file_is_run(self) -> None:
        self.look(self.call("run", "first"), 0, "A", NONE)

    def test_a_program_on_standard_input_is_run(self) -> None:
        self.look(self.call("run", "-", given="first"), 0, "A", NONE)

    def test_bytes_over_127_go_in_and_out_as_they_are(self) -> None:
        self.look(self.call("run", "--input", "bytes", "upper"), 0, b"HI \x01\x7f\x80\xff Z", NONE)

    def test_an_input_on_standard_input_is_the_same(self) -> None:
        self.look(self.call("run", "--input", "-", "upper", given="bytes"), 0, b"HI \x01\x7f\x80\xff Z", NONE)

    def test_a_bound_of_turns_cuts_a_run(self) -> None:
        self.look(self.call("run", "--input", "-", "--turns", "2", "upper", given="bytes"), 0, "HI ", NONE)

    def test_a_program_with_a_number_that_is_wrong_is_refused_with_its_line(self) -> None:
        whole = self.read("first")
        self.assertEqual(whole.count(b"\nput 2\n"), 1)
        self.write("damaged", whole.replace(b"\nput 2\n", b"\nput 9\n"))
        self.look(self.call("run", "damaged"), 5, "", "cbi: refusal 20 BadProgram line 10\n")

    def test_a_program_with_a_byte_over_127_is_refused_with_its_line(self) -> None:
        self.write("damaged", b"cbi-program \x80\n")
        self.look(self.call("run", "damaged"), 5, "", "cbi: refusal 20 BadProgram line 1\n")

    def test_an_empty_file_is_refused_as_a_program(self) -> None:
        self.write("empty", "")
        self.look(self.call("run", "empty"), 5, "", "cbi: refusal 20 BadProgram line 1\n")


class Banks(Process):
    """Banks that are read, and one that is made."""

    def test_a_bank_is_read(self) -> None:
        self.write("bank", "3\n1\n")
        self.look(self.call("run", "--bank", "bank", "first"), 0, "A", NONE)

    def test_a_bank_on_standard_input_is_read(self) -> None:
        self.write("bank", "3\n1\n")
        self.look(self.call("run", "--bank", "-", "first", given="bank"), 0, "A", NONE)

    def test_a_bank_with_a_zero_is_refused_with_its_line(self) -> None:
        self.write("bank", "3\n0\n")
        self.look(self.call("run", "--bank", "bank", "first"), 5, "", "cbi: refusal 21 BadBank line 2\n")

    def test_a_bank_of_as_many_lines_as_there_may_be_is_read(self) -> None:
        self.write("bank", "1\n" * 65536)
        self.look(self.call("run", "--bank", "bank", "first"), 0, "A", NONE)

    def test_a_bank_of_a_line_more_is_refused_with_that_line(self) -> None:
        self.write("bank", "1\n" * 65537)
        self.look(self.call("run", "--bank", "bank", "first"), 5, "", "cbi: refusal 21 BadBank line 65537\n")

    def test_a_bank_is_made_from_a_seed_and_a_stream(self) -> None:
        self.look(self.call("bank", "--rate", "2", "--count", "1", "--seed", "42", "--stream", "54"), 0, "2\n", "")


class Reports(Process):
    """The reports that runs leave."""

    def test_a_run_with_a_report_writes_its_output_and_leaves_the_report(self) -> None:
        self.write("want", "A")
        came, report = self.run_reported("--expect", "want", "--run=5", "--", "first")
        self.look(came, 0, "A", NONE, "the run")
        due = f"cbi-report 2\nprogram {self.identity('first')}\nrun 5\noutcome ended 0\nlabel pass\nwork 0 0 0\nend\n"
        self.look_at("the report", report, due)

    def test_a_report_that_cannot_be_written_is_told_after_the_output(self) -> None:
        self.look(self.call("run", "--report", "missing/report", "first"), 4, "A", "cbi: write fault\n")

    def test_a_bank_of_3_has_the_third_of_three_sites_observed(self) -> None:
        self.write("three", THREE)
        self.write("bank", "3\n")
        came, report = self.run_reported("--bank", "bank", "three")
        self.look(came, 0, "", "first 2\nhottest 2 1\nlast 2\n", "the run")
        due = f"cbi-report 2\nprogram {self.identity('three')}\nrun 1\noutcome ended 0\nlabel pass\nwork 0 1 3\nsite 2 1 0 0\nend\n"
        self.look_at("the report", report, due)
