"""Looks at collections of reports, and at what is made of them: rankings, pairs, lines, bugs, cards, sessions, and a part's collection widened."""
from process_base import EDITS, HEADER, THREE, Ended, Process


class Collections(Process):
    """Reports collected, and reports that are refused."""

    def setUp(self) -> None:
        super().setUp()
        self.collect_two()
        self.due = (
            f"cbi-collection 2\nprogram {self.identity('first')}\n"
            "run 3 ended 0 label pass work 0 0 0\nrun 5 ended 0 label pass work 0 0 0\nend\n"
        )

    def collect(self, *names: str, program: str = "first") -> Ended:
        return self.call("collect", "--program", program, *names)

    def edited(self, name: str, old: bytes, new: bytes) -> None:
        """Has a file hold the report with one line changed."""
        whole = self.read("report")
        self.assertEqual(whole.count(b"\n" + old), 1)
        self.write(name, whole.replace(b"\n" + old, b"\n" + new))

    def test_reports_are_collected_by_their_numbers_and_one_that_repeats_is_counted(self) -> None:
        self.look(self.collect("report", "second", "report"), 0, self.due, "added 2 repeated 1\n")

    def test_a_collection_beside_a_report_is_read_too(self) -> None:
        self.look(self.collect("second", "runs"), 0, self.due, "added 2 repeated 1\n")

    def test_a_report_without_its_end_is_refused_with_its_file_and_line(self) -> None:
        self.write("endless", f"cbi-report 1\nprogram {self.identity('first')}\nrun 5\noutcome ended 0\nwork 0 0 0\n")
        self.look(self.collect("endless", "second"), 5, "", "cbi: refusal 22 BadReport file 1 line 6\n", "as the first file")
        self.look(self.collect("second", "endless"), 5, "", "cbi: refusal 22 BadReport file 2 line 6\n", "as the second file")

    def test_another_report_of_a_run_is_a_conflict(self) -> None:
        self.edited("other", b"work 0 0 0\n", b"work 1 0 0\n")
        self.look(self.collect("report", "other"), 5, "", "cbi: refusal 24 Conflict run 5\n")

    def test_a_report_of_a_site_that_is_not_there_is_refused(self) -> None:
        self.edited("strange", b"end\n", b"site 7 1 0 0\nend\n")
        self.look(self.collect("strange"), 5, "", "cbi: refusal 29 NoSite run 5 site 7\n")

    def test_a_report_of_another_program_is_refused_with_both_identities(self) -> None:
        due = f"cbi: refusal 23 Foreign ours {self.identity('upper')} theirs {self.identity('first')}\n"
        self.look(self.collect("report", program="upper"), 5, "", due)


class Findings(Process):
    """What is found in a collection of a program without sites."""

    def setUp(self) -> None:
        super().setUp()
        self.collect_two()

    def test_a_ranking_without_leaders_is_its_header(self) -> None:
        self.look(self.call("rank", "first", "runs"), 0, HEADER, "")

    def test_a_program_without_predicates_has_no_pairs(self) -> None:
        self.look(self.call("pairs", "first", "runs"), 0, "pairs 0 counted 0 skipped 0\nbest none\n", "")

    def test_runs_that_all_pass_have_no_lines_and_no_bugs(self) -> None:
        self.look(self.call("lines", "first", "runs"), 0, "lines 0 2 0\nend\n", "")
        self.look(self.call("bugs", "first", "runs"), 0, "bugs 0 2\nrest 0\nend\n", "")

    def test_a_file_that_is_no_collection_has_no_lines_and_no_bugs(self) -> None:
        for command in ("lines", "bugs"):
            self.look(self.call(command, "first", "first"), 5, "", "cbi: refusal 27 BadCollection file 1 line 1\n", f"{command}: a program")
            due = f"cbi: refusal 23 Foreign ours {self.identity('upper')} theirs {self.identity('first')}\n"
            self.look(self.call(command, "upper", "runs"), 5, "", due, f"{command}: a collection of another program")
            self.write("strange", self.read("runs").replace(b"end\n", b"site 7 1 0 0\nend\n"))
            self.look(self.call(command, "first", "strange"), 5, "", "cbi: refusal 29 NoSite run 5 site 7\n", f"{command}: a site that isn't there")

    def test_cards_without_leaders_are_their_end(self) -> None:
        self.look(self.call("cards", "first", "runs"), 0, "end\n", "")

    def test_a_part_that_has_all_sites_is_widened_to_the_same_collection(self) -> None:
        came = self.call("widen", "--whole", "first", "--part", "0/1", "first", "runs")
        self.look(came, 0, self.read("runs"), "")

    def test_a_program_that_has_not_that_part_is_refused(self) -> None:
        self.write("three", THREE)
        self.look(self.call("widen", "--whole", "three", "--part", "0/2", "first", "runs"), 5, "", "cbi: refusal 32 NotPart\n")


class Sessions(Process):
    """Edits that are followed, and edits that are refused."""

    def test_a_session_writes_a_ranking_for_each_line_that_asks_for_one(self) -> None:
        self.write("edits", EDITS)
        self.look(self.call("session", "--program", "first", "edits"), 0, HEADER + HEADER, "")

    def test_edits_on_standard_input_are_followed(self) -> None:
        self.write("edits", EDITS)
        self.look(self.call("session", "--program", "first", "--policy", "relabel", "-", given="edits"), 0, HEADER + HEADER, "")

    def test_a_run_that_is_removed_and_not_held_is_refused(self) -> None:
        self.write("typo", EDITS.replace("remove 3\n", "remove 7\n"))
        self.look(self.call("session", "--program", "first", "typo"), 5, "", "cbi: refusal 31 Absent run 7\n")

    def test_edits_without_a_line_are_refused(self) -> None:
        self.write("empty", "")
        self.look(self.call("session", "--program", "first", "empty"), 5, "", "cbi: refusal 30 BadEdits line 1\n")
