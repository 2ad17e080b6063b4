"""Looks where failing runs broke, as test_tools does at the rest: the line and the calls of a trap, a wrong byte, a loop that is never left.

Where each program breaks stands in it as a comment, `/* HERE */` at the line; nothing is taken from what the tools say.
"""
import json
import os
import shutil
import sys
import unittest

import looking
from looking import Case

sys.path.insert(0, looking.TOOLS)
import cbi_show.broke  # noqa: E402
from cbi_hunt import broke, marks, sanitized, showing  # noqa: E402
from cbi_show import files  # noqa: E402
from cbi_hunt.counts import Count  # noqa: E402
from cbi_hunt.hunting import plan_of  # noqa: E402
from cbi_hunt.inputs import inputs_of  # noqa: E402
from cbi_hunt.kept import Kept  # noqa: E402
from cbi_hunt.looks import Hunt  # noqa: E402
from cbi_hunt.words import arguments  # noqa: E402

TRAPS = """\
#include <assert.h>
#include <stdio.h>
#include <stdlib.h>
int zero;
int deep(int n)
{
    return n + deep(n + 1); /* trap c */
}
int work(int c)
{
    int unset;
    int four[4];
    int *one = malloc(sizeof(int));
    int *none = NULL;
    char *text = "text";
    void *cell = malloc(1);
    char *letter = cell;
    int *number = cell;
    int i;
    *one = 1;
    for (i = 0; i < 4; i++)
        four[i] = i;
    if (c == '1')
        return 2147483647 + c; /* trap 1 */
    if (c == '2')
        return c / zero; /* trap 2 */
    if (c == '3')
        return 1 << c; /* trap 3 */
    if (c == '4')
        return unset; /* trap 4 */
    if (c == '5') {
        *letter = 'a';
        return *number; /* trap 5 */
    }
    if (c == '6')
        for (i = 0; i < 9; i++)
            four[i] = c; /* trap 6 */
    if (c == '7') {
        free(one);
        c = *one; /* trap 7 */
    }
    if (c == '8')
        *none = 1; /* trap 8 */
    if (c == '9')
        *text = 'x'; /* trap 9 */
    if (c == 'a')
        free(four); /* trap a */
    if (c == 'b')
        return &four[0] < one; /* trap b */
    if (c == 'c')
        return deep(1); /* deep */
    if (c == 'd')
        assert(c == 0); /* trap d */
    if (c == 'e')
        abort(); /* trap e */
    return c;
}
int main(void)
{
    int c = getchar();
    putchar(c);
    while (c != EOF) {
        c = getchar();
        printf("%d\\n", work(c)); /* call */
    }
    return 0;
}
"""
# Lines of ordinary C, which is ported: a list whose last node is freed and stays in it.
LIST = """\
#include <stdio.h>
#include <stdlib.h>
typedef struct node { int value; struct node *next; } node;
static node *head, *tail;
static node *made(int value)
{
    node *n = malloc(sizeof *n); /* allocated */
    n->value = value;
    n->next = NULL;
    return n;
}
static void add(int value)
{
    node *n = made(value); /* adding */
    if (head == NULL)
        head = n;
    else
        tail->next = n; /* used */
    tail = n;
}
static void drop(void)
{
    node *n = head;
    head = n->next;
    free(n); /* freed */
}
int main(void)
{
    int c;
    while ((c = getchar()) != EOF)
        switch (c) {
        case '+':
            add(c); /* add */
            break;
        case '-':
            drop(); /* drop */
            break;
        case '!':
            head = made(c);
            tail->next = head;
            break;
        default:
            putchar(c);
        }
    return 0;
}
"""
LOOPS = """\
#include <stdio.h>
int depth;
void inner(int n)
{
    int i;
    for (i = 0; i < n; i++)
        depth += i & 1;
}
int skip(int n)
{
    int turns = 0;
    while (depth >= 0) { /* hangs */
        inner(n);
        turns++;
    }
    return turns;
}
int main(void)
{
    int c;
    while ((c = getchar()) != EOF) {
        inner(3);
        if (c == '{')
            putchar(skip(20)); /* call */
        putchar(c);
    }
    return 0;
}
"""


def line_of(text, mark):
    """The line of a text that has a comment."""
    found = [number for number, line in enumerate(text.split("\n"), 1) if f"/* {mark} */" in line]
    assert len(found) == 1, mark
    return found[0]


class Broken(Case):
    """A case that looks at one failing input of a text, without a whole hunt."""

    def hunt(self, text, data, *words):
        self.write("prog.c", text)
        self.write("in/input", data)
        shutil.rmtree(self.path("kept"), ignore_errors=True)
        os.makedirs(self.path("kept"))
        chosen = arguments([self.path("prog.c"), "--inputs", self.path("in"), "--no-check", *words])
        kept = Kept(self.path("kept"))
        self.addCleanup(kept.lock.close)
        inputs = inputs_of(chosen, self.path("kept"))
        plan, *_ = plan_of(chosen, kept, inputs, looking.CBI)
        return Hunt(chosen, plan, kept, inputs, Count(plan))

    def broken(self, text, data, due=None, words=()):
        hunt = self.hunt(text, data, *words)
        where = showing.where_of(hunt, files.read_source(hunt.kept.path("source.c")))
        found = broke.broken_at(hunt, self.path("in/input"), due, where)
        self.assertEqual([name for name in os.listdir(hunt.kept.folder) if name.startswith(("marked", "broke", "last"))], [])
        return found

    def calls(self, found):
        for call in found.calls:
            self.assertEqual(call.file, self.path("prog.c"))
        return [(call.function, call.line) for call in found.calls]


class Traps(Broken):
    def test_each_trap_has_its_line_and_its_calls(self):
        for number, letter in enumerate("123456789abcde", 1):
            if letter == "c":
                continue
            with self.subTest(trap=number):
                found = self.broken(TRAPS, "x" + letter)
                self.assertEqual((found.kind, found.outcome, found.exact), ("trap", f"trapped {number}", True))
                self.assertEqual(self.calls(found), [("work", line_of(TRAPS, f"trap {letter}")), ("main", line_of(TRAPS, "call"))])
                self.assertEqual(found.calls[0].text, TRAPS.split("\n")[found.calls[0].line - 1].strip())

    def test_a_recursion_without_end_has_its_calls(self):
        found = self.broken(TRAPS, "xc")
        calls = self.calls(found)
        self.assertEqual(found.outcome, "trapped 12")
        self.assertEqual(calls[-2:], [("work", line_of(TRAPS, "deep")), ("main", line_of(TRAPS, "call"))])
        self.assertEqual(set(calls[:-2]), {("deep", line_of(TRAPS, "trap c"))})
        self.assertGreater(len(calls), 505)
        said = dict(cbi_show.broke.lines_of(found))["called from"]
        self.assertEqual(said.count(" in deep"), 4)
        self.assertRegex(said, r", from \d+ more, from \S.*prog\.c:\d+ in main$")

    def test_a_function_of_the_library_is_told_by_its_call(self):
        """The port has its own `strcpy`, and another name for a `main` with arguments; both are told as the author has them."""
        text = ("#include <string.h>\n#include <stdio.h>\nstatic char room[4];\nstatic void keep(const char *word)\n{\n    strcpy(room, word); /* here */\n}\n"
                "int main(int argc, char **argv)\n{\n    char word[20];\n    argc++;\n    while (scanf(\"%19s\", word) == 1) /* before */\n        keep(word); /* call */\n    return argc > 9;\n}\n")
        found = self.broken(text, "abc defgh", words=("--args", "one"))
        self.assertEqual((found.outcome, found.inside, self.calls(found)), ("trapped 6", "strcpy", [("keep", line_of(text, "here")), ("main", line_of(text, "call"))]))
        self.assertEqual(found.before.line, line_of(text, "before"))
        self.assertIn(f"prog.c:{line_of(text, 'here')} in keep, in strcpy: strcpy(room, word); /* here */", dict(cbi_show.broke.lines_of(found))["it stopped (an out-of-bounds access) at"])

    def test_what_was_done_just_before_is_told(self):
        """The null pointer comes of `find`, which returned it."""
        text = "#include <stdlib.h>\nint *find(int c)\n{\n    if (c != 'x')\n        return malloc(1);\n    return NULL; /* before */\n}\nint main(void)\n{\n    *find(getchar()) = 1; /* here */\n    return 0;\n}\n"
        found = self.broken(text, "x")
        self.assertEqual(self.calls(found), [("main", line_of(text, "here"))])
        self.assertEqual((found.before.function, found.before.line), ("find", line_of(text, "before")))

    def test_a_trap_after_many_statements(self):
        """The window is far behind the first ticks; the calls and loops that were begun before it are known all the same."""
        text = ("#include <stdio.h>\nint total;\nvoid add(int n)\n{\n    int i;\n    for (i = 0; i < n; i++)\n        total += total < 1000;\n    if (n == 299)\n        total = 1 / (total - total); /* here */\n}\n"
                "void all(int n)\n{\n    int i;\n    for (i = 0; i < n; i++)\n        add(i); /* adding */\n}\nint main(void)\n{\n    all(getchar() * 3); /* all */\n    return 0;\n}\n")
        found = self.broken(text, "z")
        self.assertEqual((found.outcome, self.calls(found)), ("trapped 2", [("add", line_of(text, "here")), ("all", line_of(text, "adding")), ("main", line_of(text, "all"))]))

    def test_a_run_without_a_failure_has_no_place(self):
        self.assertIsNone(self.broken(UNHURT, "abc"))
        self.assertIsNone(self.broken(UNHURT, "abc", b"abc"))


UNHURT = "#include <stdio.h>\nint main(void)\n{\n    int c;\n    while ((c = getchar()) != EOF)\n        putchar(c);\n    return 0;\n}\n"


@unittest.skipUnless(shutil.which("gcc"), "there is no gcc here")
class Memory(Broken):
    def places(self, calls):
        return [(call.function, call.line) for call in calls]

    def test_a_use_after_free_has_its_three_places(self):
        found = self.broken(LIST, "+-!")
        add = [("main", line_of(LIST, "add"))]
        self.assertEqual(found.outcome, "trapped 7")
        access = found.access
        self.assertEqual(access.name, "heap-use-after-free")
        self.assertRegex(access.what, r"^a write of \d bytes$")
        self.assertEqual(self.places(access.freed), [("drop", line_of(LIST, "freed")), ("main", line_of(LIST, "drop"))])
        self.assertEqual(self.places(access.allocated), [("made", line_of(LIST, "allocated")), ("add", line_of(LIST, "adding"))] + add)
        said = dict(cbi_show.broke.lines_of(found))
        own = self.path("prog.c")
        self.assertEqual(said["freed there"], f"{own}:{line_of(LIST, 'freed')} in drop, called from {own}:{line_of(LIST, 'drop')} in main: free(n); /* freed */")

    def test_the_place_of_its_use_is_that_of_the_trap(self):
        text = LIST.replace("        case '!':\n            head = made(c);\n            tail->next = head;\n            break;\n", "").replace("    if (head == NULL)\n", "    if (tail == NULL)\n")
        found = self.broken(text, "+-+")
        due = [("add", line_of(text, "used")), ("main", line_of(text, "add"))]
        self.assertEqual((self.calls(found), self.places(found.access.used)), (due, due))

    def test_a_free_twice_and_a_row_that_is_passed(self):
        text = ("#include <stdio.h>\n#include <stdlib.h>\nint row[4]; /* row */\nint main(void)\n{\n    int c = getchar();\n    int own[3]; /* own */\n    int *to = own;\n    char *heap = malloc(3); /* heap */\n    own[0] = 0;\n"
                "    if (c == 'f') {\n        free(heap); /* first */\n        free(heap); /* second */\n    }\n    if (c == 'h')\n        heap[c - 'h' + 3] = 1; /* past heap */\n    if (c == 'o')\n        to[c - 'o' + 3] = 1; /* past own */\n"
                "    to = row;\n    if (c == 'r')\n        to[c - 'r' + 4] = 1; /* past row */\n    return 0;\n}\n")
        for letter, name, used, freed, allocated, declared in (("f", "attempting double-free", "second", ["first"], ["heap"], None), ("h", "heap-buffer-overflow", "past heap", [], ["heap"], None),
                                                               ("o", "stack-buffer-overflow", "past own", [], [], "own"), ("r", "global-buffer-overflow", "past row", [], [], "row")):
            with self.subTest(letter):
                access = self.broken(text, letter).access
                self.assertEqual(access.name, name)
                for calls, due in ((access.used, [used]), (access.freed, freed), (access.allocated, allocated), ([access.declared] if access.declared else [], [declared] if declared else [])):
                    self.assertEqual([call.line for call in calls], [line_of(text, mark) for mark in due])

    def test_a_text_that_gcc_stops_at_for_its_cells_has_no_places(self):
        """In the dialect `malloc(2)` has room for two ints, in C for two bytes: what gcc stops at first is no fault here."""
        text = "#include <stdlib.h>\nint main(void)\n{\n    int *two = malloc(2);\n    two[1] = 1;\n    free(two);\n    return *two; /* here */\n}\n"
        found = self.broken(text, "x")
        self.assertEqual((found.outcome, self.calls(found), found.access), ("trapped 7", [("main", line_of(text, "here"))], None))

    def test_files_that_gcc_refuses_say_nothing(self):
        self.assertIsNone(sanitized.said_of(sanitized.Files([self.write("bad.c", "int main(void) { return x; }\n")], [], []), b""))

    def test_an_end_that_comes_of_no_sanitizer_says_nothing(self):
        self.assertIsNone(sanitized.said_of(sanitized.Files([self.write("good.c", UNHURT)], [], []), b"abc"))


class Outputs(Broken):
    # On `a b` it writes `<a>`, a newline, `<b>`: the second letter is written by another function, one too high.
    TEXT = ("#include <stdio.h>\nvoid letter(int c)\n{\n    putchar('<'); /* open */\n    putchar(c); /* letter */\n    putchar('>'); /* close */\n}\n"
            "void line(int c, int n)\n{\n    if (n == 1)\n        c = c + 1; /* wrong */\n    letter(c); /* calls */\n    puts(\"\"); /* ends */\n}\n"
            "int main(void)\n{\n    int c;\n    int n = 0;\n    while ((c = getchar()) != EOF)\n        line(c, n++); /* lines */\n    return 0; /* end */\n}\n")

    def line(self, mark):
        return line_of(self.TEXT, mark)

    def test_the_first_wrong_byte_and_where_it_was_written(self):
        # <a>\n<c>\n in place of <a>\n<b>\n: byte 6, the second one of line 2
        found = self.broken(self.TEXT, "ab", b"<a>\n<b>\n")
        self.assertEqual((found.kind, found.outcome, found.exact), ("output", "ended", True))
        self.assertEqual(found.wrong, cbi_show.broke.Wrong(6, 2, 2, ord("c"), ord("b")))
        self.assertEqual(self.calls(found), [("letter", self.line("letter")), ("line", self.line("calls")), ("main", self.line("lines"))])
        self.assertEqual((found.before.function, found.before.line), ("letter", self.line("open")))
        self.assertEqual(dict(cbi_show.broke.lines_of(found))["first wrong byte"], "byte 6 (line 2, column 2): 'c', and 'b' is expected")

    def test_an_output_that_ends_too_early(self):
        found = self.broken(self.TEXT, "a", b"<a>\n<b>\n")
        self.assertEqual(found.wrong, cbi_show.broke.Wrong(5, 2, 1, None, ord("<")))
        self.assertEqual(self.calls(found), [("main", self.line("end"))])
        self.assertEqual(dict(cbi_show.broke.lines_of(found))["first wrong byte"], "byte 5 (line 2, column 1): the output ends there, and '<' is expected")

    def test_an_output_that_goes_on_too_long(self):
        found = self.broken(self.TEXT, "ab", b"<a>")
        self.assertEqual(found.wrong, cbi_show.broke.Wrong(4, 1, 4, 10, None))
        self.assertEqual(self.calls(found), [("line", self.line("ends")), ("main", self.line("lines"))])
        self.assertEqual(dict(cbi_show.broke.lines_of(found))["first wrong byte"], "byte 4 (line 1, column 4): '\\n', where the expected output ends")

    def test_a_wrong_byte_after_many(self):
        data = "a" * 3000 + "b"
        text = self.TEXT.replace("n == 1", "n == 3000")
        found = self.broken(text, data, b"<a>\n" * 3000 + b"<b>\n")
        self.assertEqual(found.wrong, cbi_show.broke.Wrong(12002, 3001, 2, ord("c"), ord("b")))
        self.assertEqual(self.calls(found)[0], ("letter", self.line("letter")))

    def test_an_output_with_other_bytes(self):
        """What is a mark elsewhere may be a byte of the output; one that has all bytes can't be followed, and the end is told by its last site."""
        echo = UNHURT.replace("return 0", "return 1 / (c + 1)")
        for data, exact in ((bytes(range(1, 9)) + b"e7;", True), (bytes(range(256)), False)):
            found = self.broken(echo, data)
            self.assertEqual((found.outcome, found.exact, self.calls(found)), ("trapped 2", exact, [("main", 7 if exact else 5)]))
        self.assertIn("its output has all bytes", dict(cbi_show.broke.lines_of(found))["not known"])


class Loops(Broken):
    def test_the_loop_that_is_never_left(self):
        """Its body has a loop that ends each time, and the loop around it goes on as well."""
        found = self.broken(LOOPS, "ab{c", words=("--hangs", "fail", "--turns", "20000"))
        self.assertEqual((found.kind, found.outcome), ("hang", "cut turns"))
        self.assertEqual((found.loop.function, found.loop.line, found.loop.text), ("skip", line_of(LOOPS, "hangs"), "while (depth >= 0)"))
        self.assertEqual(self.calls(found)[-1], ("main", line_of(LOOPS, "call")))
        self.assertEqual(cbi_show.broke.title_of(found), f"The run never leaves the loop `while (depth >= 0)` at {self.path('prog.c')}:{line_of(LOOPS, 'hangs')} in skip.")

    def test_it_is_the_title_of_a_hunt(self):
        self.write("loops.c", LOOPS)
        for name in ("abc", "{", "q{r", "xy", "z"):
            self.write(f"words/{name}", name)
        out, _ = self.call("cbi-hunt", "loops.c", "--inputs", "words", "--hangs", "fail", "--turns", "2000", "--jobs", "1", "--keep", "kept")
        self.assertTrue(out.startswith(f"The run never leaves the loop `while (depth >= 0)` at loops.c:{line_of(LOOPS, 'hangs')} in skip."), out)
        again, _ = self.call("cbi-show", "--hunt", "kept")
        self.assertEqual(again.split("\n")[0], out.split("\n")[0])
        self.assertIn(f"<h1>The run never leaves the loop <code>while (depth &gt;= 0)</code> at loops.c:{line_of(LOOPS, 'hangs')} in skip.</h1>", self.read("kept/page.html").decode())


class Marks(Broken):
    # All statements in all forms, without braces where there may be none.
    FORMS = """\
#include <stdio.h>
int calls;
int *none(int n) { return 0; }
int two(int n) { return calls++, n * 2; }
void quiet(int n)
{
    if (n) return;
    calls++;
}
int falls(int n) { if (n) return (n); else return n + 1; }
int main(void)
{
    int i, n = 0;
    for (;;) if (n++ > 3) break; else continue;
    for (int k = 0; k < 3; k++) for (i = 0; i < 2; i++) n += k * i;
    do n--; while (n > 2);
    do { n++; if (n == 5) continue; } while (n < 9);
    while (n > 7) n--;
    while (n-- > 4) ;
    for (i = 0; i < 2; i++) ;
    for (; i < 4;) i++;
    if (none(n) == NULL) if (n) n = two(n); else n = 1; else n = 2;
    if (n == 1) puts("one"); else if (n == 6) { puts("six"); } else if (n > 100) puts("many");
    else puts("some");
    quiet(0), quiet(1);
    { int own = falls(0) + falls(2); n += own; { } }
    switch_like: n;
    printf("%d %d %d\\n", n, i, calls);
    return n > 100 ? 1 : (0);
}
"""

    def test_a_text_without_room_for_marks_is_reported_with_its_size(self):
        rows = ["int main(void) {", "int n = 0;", *["n++;"] * 30000, "return n;", "}", ""]
        self.assertRegex(marks.Marked(rows).too_large(1), r"^the marks that tell them make the text [23]\d\d,\d\d\d tokens of 90,015, and 100,000 is the most$")
        self.assertEqual(marks.Marked(rows[:100] + rows[-3:]).too_large(1), "")

    def test_a_text_with_marks_does_what_it_did(self):
        text = self.FORMS.replace("    switch_like: n;\n", "")
        marked = marks.Marked(text.split("\n"))
        self.assertEqual(marked.functions, ["none", "two", "quiet", "falls", "main"])
        self.transform(text, "plain")
        due = self.call("cbi", "run", "prog.cbi")[0]
        self.transform(marked.text(1, 2147483647, 0), "plain")
        self.assertEqual(self.call("cbi", "run", "--turns", "100000000", "prog.cbi")[0], due)
        for start in (1, 2, 30, 60):
            self.transform(marked.text(1, start, 100000), "plain")
            out = self.call("cbi", "run", "--turns", "100000000", "prog.cbi")[0].encode()
            self.assertEqual(marks.without_marks(out, 1).decode(), due)
            self.assertEqual(marks.state_at(out, 1, start, None).frames, [marks.Frame(4, line_of_return(text), 0)])

    def test_a_text_that_can_not_be_marked_is_told_by_its_last_site(self):
        text = "#include <stdio.h>\nint cbi_broke_it;\nint main(void)\n{\n    int c = getchar();\n    if (c == 'x')\n        return 1 / cbi_broke_it;\n    return 0;\n}\n"
        found = self.broken(text, "x")
        self.assertEqual((found.exact, self.calls(found)), (False, [("main", 6)]))
        said = dict(cbi_show.broke.lines_of(found))
        self.assertEqual(said["last seen at"], f"{self.path('prog.c')}:6 in main: if (c == 'x')")
        self.assertEqual(said["not known"], "the calls that were active: its text can't be marked: the text has names that begin with cbi_broke")

    def test_a_text_as_deep_as_can_be_is_told_all_the_same(self):
        """190 times `else if`: marks make no text too deep."""
        chain = "    if (c == 0)\n        c = 1;\n" + "".join(f"    else if (c == {n})\n        c = {n} / (c - {n});\n" for n in range(1, 191))
        found = self.broken(f"#include <stdio.h>\nint main(void)\n{{\n    int c = getchar();\n{chain}    return c;\n}}\n", "x")
        self.assertEqual((found.outcome, found.exact, self.calls(found)), ("trapped 2", True, [("main", 6 + 2 * ord("x"))]))

    def test_it_is_kept_and_read_again(self):
        call = cbi_show.broke.Call("a.c", 3, "main", "x = 1;")
        whole = cbi_show.broke.Broke("trap", "trapped 7", True, [call, call._replace(line=9)], "strcpy", call, call, cbi_show.broke.Wrong(1, 2, 3, None, 10),
                                cbi_show.broke.Access("heap-use-after-free", "a read of 4 bytes", "", [call], [], [call], call), "why")
        for given in (whole, cbi_show.broke.Broke("hang", "cut turns", False, [])):
            self.assertEqual(cbi_show.broke.read_broke(json.loads(json.dumps(cbi_show.broke.plain_of(given)))), given)
        self.assertIsNone(cbi_show.broke.read_broke(cbi_show.broke.plain_of(None)))


def line_of_return(text):
    """The line of the last `return`."""
    return max(number for number, line in enumerate(text.split("\n"), 1) if line.startswith("    return"))


if __name__ == "__main__":
    looking.CBI = os.path.abspath(sys.argv.pop(1))
    unittest.main()
