"""Looks at calls whose out or err takes nothing: a full device, or a stream that is closed."""
import os

from process_base import EDITS, HAS_FULL, SIX, Process

# How a stream takes nothing: what it is, and what a shell writes behind its number.
WAYS = [("closed", "&-")] + ([("full", "/dev/full")] if HAS_FULL else [])


class Streams(Process):
    """Each command, and each way that one is refused."""

    def setUp(self) -> None:
        super().setUp()
        self.collect_two()
        self.write("six.c", SIX)
        self.write("edits", EDITS)

    def look_mute(self, *words: str) -> None:
        """Where out takes nothing, that is told."""
        self.assertNotEqual(self.call(*words).out, b"")
        for way, where in WAYS:
            self.look(self.call_with(f">{where}", *words), 4, "", "cbi: write fault\n", f"an out that is {way}")

    def look_deaf(self, status: int, *words: str) -> None:
        """Where err takes nothing, the status and out are as they are where err takes all."""
        heard = self.call(*words)
        self.assertEqual(heard.status, status)
        for way, where in WAYS:
            self.look(self.call_with(f"2>{where}", *words), heard.status, heard.out, "", f"an err that is {way}")

    def look_both(self, *words: str) -> None:
        self.look_mute(*words)
        self.look_deaf(0, *words)

    def test_a_text_is_compiled_without_an_err_and_not_without_an_out(self) -> None:
        self.look_both("transform", "--mode", "sampled", "six.c")

    def test_a_program_is_run_without_an_err_and_not_without_an_out(self) -> None:
        self.look_both("run", "--report", "alone", "first")

    def test_reports_are_collected_without_an_err_and_not_without_an_out(self) -> None:
        self.look_both("collect", "--program", "first", "second", "runs")

    def test_predicates_are_ranked_without_an_err_and_not_without_an_out(self) -> None:
        self.look_both("rank", "first", "runs")

    def test_pairs_are_found_without_an_err_and_not_without_an_out(self) -> None:
        self.look_both("pairs", "first", "runs")

    def test_lines_are_listed_without_an_err_and_not_without_an_out(self) -> None:
        self.look_both("lines", "first", "runs")

    def test_bugs_are_listed_without_an_err_and_not_without_an_out(self) -> None:
        self.look_both("bugs", "first", "runs")

    def test_cards_are_dealt_without_an_err_and_not_without_an_out(self) -> None:
        self.look_both("cards", "first", "runs")

    def test_a_bank_is_made_without_an_err_and_not_without_an_out(self) -> None:
        self.look_both("bank", "--rate", "2", "--count", "3", "--seed", "42")

    def test_edits_are_followed_without_an_err_and_not_without_an_out(self) -> None:
        self.look_both("session", "--program", "first", "edits")

    def test_a_collection_is_widened_without_an_err_and_not_without_an_out(self) -> None:
        self.look_both("widen", "--whole", "first", "--part", "0/1", "first", "runs")

    def test_a_text_is_studied_without_an_err_and_not_without_an_out(self) -> None:
        self.look_both("study", "--runs", "2", "--seed", "7", "--rate", "1", "--turns", "10", "six.c")

    def test_a_list_of_inputs_is_run_without_an_err_and_not_without_an_out(self) -> None:
        self.write("list", "six.c\nedits\n")
        self.look_both("runs", "--inputs", "list", "--rate", "1", "--seed", "7", "first")

    def test_a_run_without_an_err_leaves_its_report(self) -> None:
        due = f"cbi-collection 2\nprogram {self.identity('first')}\nrun 1 ended 0 label pass work 0 0 0\nend\n"
        for way, where in WAYS:
            self.call_with(f"2>{where}", "run", "--report", way, "first")
            self.look(self.call("collect", "--program", "first", way), 0, due, "added 1 repeated 0\n", f"an err that is {way}")

    def test_a_run_without_an_out_leaves_no_report(self) -> None:
        for way, where in WAYS:
            self.call_with(f">{where}", "run", "--report", way, "first")
            with self.counted(f"an out that is {way}"):
                self.assertFalse(os.path.exists(self.path(way)))

    def test_words_that_are_no_command_have_their_status_without_an_err(self) -> None:
        self.look_deaf(2, "walk")

    def test_a_file_that_is_missing_has_its_status_without_an_err(self) -> None:
        self.look_deaf(3, "run", "missing")

    def test_an_input_that_is_missing_has_its_status_without_an_err(self) -> None:
        self.write("list", "edits\nmissing\n")
        self.look_deaf(3, "runs", "--inputs", "list", "--rate", "1", "--seed", "7", "first")

    def test_a_file_that_is_refused_has_its_status_without_an_err(self) -> None:
        self.write("empty", "")
        self.look_deaf(5, "run", "empty")

    def test_a_report_that_cannot_be_written_has_its_status_without_an_err(self) -> None:
        self.look_deaf(4, "run", "--report", "missing/report", "first")
