"""Looks at texts that are compiled, and at texts that are refused."""
from process_base import MODES, Ended, Process

# It gives each byte of its input as the next one.
NEXT = """\
#include <stdio.h>
int main(void)
{
    int c;
    while ((c = getchar()) != EOF)
        putchar(c + 1);
    return 0;
}
"""


def assignments(count: int) -> str:
    """A text with 257 variables and this many assignments, each of which has a pair with each other variable: 256 sites each."""
    return "".join(f"int v{number};\n" for number in range(257)) + "int main(void){\n" + "v0=v1;\n" * count + "}\n"


class Compiled(Process):
    """A text that is compiled, in each mode, and words of `transform` that have a wrong value."""

    def setUp(self) -> None:
        super().setUp()
        self.write("next.c", NEXT)

    def transform(self, mode: str, *words: str) -> Ended:
        return self.call("transform", "--mode", mode, *words, "next.c")

    def test_a_text_is_compiled_in_each_mode_and_err_is_told_nothing(self) -> None:
        for mode in MODES:
            self.look(self.transform(mode), 0, None, "", mode)

    def test_a_program_of_each_mode_writes_what_the_text_means(self) -> None:
        self.write("word", "HAL")
        for mode in MODES:
            self.make("next", "transform", "--mode", mode, "next.c")
            self.look(self.call("run", "--input", "word", "next"), 0, "IBM", None, mode)

    def test_a_text_on_standard_input_is_compiled(self) -> None:
        self.look(self.call("transform", "--mode=full", "--schemes", "returns,branches", "-", given="next.c"), 0, None, "")

    def test_two_schemes_find_a_condition_and_a_returned_value(self) -> None:
        came = self.call("transform", "--mode=full", "--schemes", "returns,branches", "-", given="next.c")
        with self.counted():
            self.assertEqual(sum(line.startswith(b"site ") for line in came.out.splitlines()), 2)

    def test_a_part_that_has_all_sites_is_the_whole_program(self) -> None:
        self.look(self.transform("full", "--part", "0/1"), 0, self.transform("full").out, "")

    def test_a_scheme_that_is_named_twice_is_told_with_its_option(self) -> None:
        self.look(self.transform("sampled", "--schemes", "returns,returns"), 2, "", "cbi: bad value of --schemes\n")

    def test_a_scheme_that_is_none_is_told_in_plain_mode_too(self) -> None:
        self.look(self.transform("plain", "--schemes", "other"), 2, "", "cbi: bad value of --schemes\n")

    def test_a_part_that_is_none_is_told_in_plain_mode_too(self) -> None:
        self.look(self.transform("plain", "--part", "2/2"), 2, "", "cbi: bad value of --part\n")

    def test_a_mode_that_is_none_is_told_with_its_option(self) -> None:
        self.look(self.transform("whole"), 2, "", "cbi: bad value of --mode\n")


class Refused(Process):
    """Texts that are refused, in each mode, with the line where the reason stands."""

    def refuse(self, text: str, refusal: str) -> None:
        self.write("refused.c", text)
        for mode in MODES:
            self.look(self.call("transform", "--mode", mode, "refused.c"), 5, "", f"cbi: refusal {refusal}\n", mode)

    def test_a_byte_that_begins_no_token_is_refused(self) -> None:
        self.refuse("\n1@2", "10 BadByte line 2")

    def test_a_constant_of_two_characters_is_refused(self) -> None:
        self.refuse("'ab'", "11 BadToken line 1")

    def test_an_empty_text_is_refused(self) -> None:
        self.refuse("", "12 Syntax line 1")

    def test_a_brace_too_many_is_refused_on_its_line(self) -> None:
        self.refuse("int main(void){return 0;}\n}", "12 Syntax line 2")

    def test_a_brace_too_many_on_the_only_line_is_refused(self) -> None:
        self.refuse("int main(void){return 0;} }", "12 Syntax line 1")

    def test_a_name_that_nothing_declares_is_refused_on_the_third_line(self) -> None:
        self.refuse("int main(void)\n{\nreturn x;}", "15 BadType kind 1 line 3")

    def test_a_name_that_nothing_declares_is_refused_on_the_second_line(self) -> None:
        self.refuse("int main(void)\n{return x;}", "15 BadType kind 1 line 2")

    def test_200_pairs_of_parentheses_are_refused(self) -> None:
        self.refuse(f"int main(void){{return {'(' * 200}1{')' * 200};}}", "12 Syntax line 1")


class Bounds(Process):
    """Texts as large as they may be, and larger."""

    def compile(self, mode: str, text: str) -> Ended:
        self.write("bound.c", text)
        return self.call("transform", "--mode", mode, "bound.c")

    def test_199_pairs_of_parentheses_are_compiled(self) -> None:
        self.look(self.compile("plain", f"int main(void){{return {'(' * 199}1{')' * 199};}}\n"), 0, None, "")

    def test_a_text_of_a_byte_too_many_is_refused(self) -> None:
        self.look(self.compile("plain", " " * 1048577), 5, "", "cbi: refusal 16 TooLarge\n")

    def test_65536_sites_are_as_many_as_there_may_be(self) -> None:
        self.look(self.compile("full", assignments(256)), 0, None, "")

    def test_more_sites_are_refused_in_each_mode_with_sites(self) -> None:
        for mode in ("full", "sampled"):
            self.look(self.compile(mode, assignments(257)), 5, "", "cbi: refusal 17 TooManySites\n", mode)

    def test_a_plain_program_of_the_same_text_has_no_sites_and_is_compiled(self) -> None:
        self.look(self.compile("plain", assignments(257)), 0, None, "")
