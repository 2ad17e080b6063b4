"""Looks at the names and expressions that hunts of ported texts show, as test_tools does at the rest: each is one of the author's files, of which what is expected stands here."""
import ast
import html
import json
import os
import random
import re
import shutil
import sys

import looking
from looking import TOOLS, Case, call

sys.path.insert(0, TOOLS)
import cbi_port  # noqa: E402
import cbi_show.where  # noqa: E402
from cbi_show import files  # noqa: E402
from cbi_show.wording import Wording  # noqa: E402

TWO = {"one.c": """\
#include <stdio.h>
#include "two.h"
static int helper(int n)
{
    return n + 1;
}
int main(int argc, char **argv)
{
    int c, sum = 0;
    while ((c = getchar()) != EOF)
        sum += helper(c) + check(c) + argc;
    printf("%s %d\\n", argv[1], sum);
    return 0;
}
""", "two.c": """\
#include <stdlib.h>
#include "two.h"
static int helper(int n)
{
    static int calls;
    calls++;
    if (n == 'q')
        abort();
    return calls;
}
int check(int c)
{
    return helper(c);
}
""", "two.h": "int check(int c);\n"}
INNER = """\
#include <stdio.h>
int main(void)
{
    int c, few[3] = { 5, 7, 9 };
again:
    c = getchar();
    if (c != EOF) {
        int n = c - 'a';
        {
            int n = c % 4;
            if (c > 0)
                printf("%d", few[n]);
        }
        printf("%d\\n", n);
        goto again;
    }
    return 0;
}
"""
ITEMS = """\
#include <stdio.h>
#include <stdlib.h>
#include <string.h>
#define NEXT(p) ((p)->next)
struct item { char key; char *text; struct item *next; };
static struct item *head;
static void add(int c)
{
    struct item *p = malloc(sizeof *p);
    p->key = c;
    p->text = c == 'z' ? NULL : strchr("abcdefghijklm", c);
    p->next = head;
    head = p;
}
int main(void)
{
    int c, sum = 0;
    struct item *p;
    while ((c = getchar()) != EOF)
        add(c);
    for (p = head; p; p = NEXT(p))
        if (strcmp(p->text, "m") != 0)
            sum += strlen(p->text);
    printf("%d\\n", sum);
    return 0;
}
"""
FLOATS = """\
#include <stdio.h>
static int over(double a, double b)
{
    return a > b;
}
int main(void)
{
    int c;
    double sum = 0;
    while ((c = getchar()) != EOF)
        sum += (c - 'a') / 2.0;
    putchar("ab"[over(sum, 14.5) * 9]);
    return 0;
}
"""
POINTERS = """\
#include <stdio.h>
static int plain(int c) { return c & 1; }
static int odd(int c) { return c / (c - 'q'); }
static int (*table[2])(int) = { plain, odd };
int main(void)
{
    int c, sum = 0;
    while ((c = getchar()) != EOF)
        sum += table[c > 'm'](c);
    printf("%d\\n", sum);
    return 0;
}
"""
LABELS = """\
#include <stdio.h>
#include <stdlib.h>
#define MOST 20
#define LAST 9
int main(void)
{
    char line[MOST];
    while (fgets(line, MOST, stdin)) {
        int n = 0, got = sscanf(line, "%*[a-p]%n", &n);
        switch (n + (got > 0)) {
        case LAST: puts("long"); break;
        case 'x':
        case 0:
            abort();
        case 1: case 2: puts("few"); break;
        default: puts("more");
        }
    }
    return 0;
}
"""
LEFT = """\
#include <stdio.h>
#include <stdlib.h>
#include <setjmp.h>
static jmp_buf env;
static int take(int c)
{
    if (c == 'q')
        longjmp(env, 1);
    return c;
}
int main(void)
{
    int c, sum = 0;
    if (setjmp(env))
        abort();
    while ((c = getchar()) != EOF)
        sum += take(c);
    printf("%d\\n", sum);
    return 0;
}
"""
COPIES = """\
#include <stdio.h>
#include <stdlib.h>
struct pair { int left, right; };
static void *xmalloc(size_t n)
{
    void *p = malloc(n);
    if (p == NULL || n > 30)
        abort();
    return p;
}
int main(void)
{
    int c, count = 0;
    struct pair *pair = xmalloc(sizeof *pair), other = { 1, 2 };
    char *text;
    while ((c = getchar()) != EOF)
        count += 1 + (c == 'q') * 30;
    text = xmalloc(count);
    text[0] = 'a';
    *pair = other;
    pair->left = text[0];
    printf("%d\\n", pair->left);
    return 0;
}
"""
MEMBERS = """\
#include <stdio.h>
struct table { int live, filled; };
static void drop(struct table *t, int c)
{
    t->filled--;
    t->live -= 1 + (c == 'q');
}
int main(void)
{
    struct table t = { 40, 40 };
    int c;
    while ((c = getchar()) != EOF)
        drop(&t, c);
    putchar("ab"[(t.live < t.filled) * 9]);
    return 0;
}
"""
ELEMENTS = """\
#include <stdio.h>
int main(void)
{
    char text[20];
    int i;
    if (!fgets(text, 20, stdin))
        return 1;
    for (i = 0; text[i]; i++)
        putchar("ab"[text[i] / 113 * 9]);
    return 0;
}
"""
TEXTS = {"inner.c": INNER, "items.c": ITEMS, "floats.c": FLOATS, "pointers.c": POINTERS, "labels.c": LABELS, "left.c": LEFT, "copies.c": COPIES}
# What isn't in the words of the tool: what ran, of which files, and what gcc says.
ASIDE = re.compile(r"^(smallest failing input|its output|the run again|failing inputs|page|ported|gcc's sanitizers say|used here|memory is kept).*$|\\(\d+|.)", re.MULTILINE)
STRING = re.compile(r"\"(?:\\.|[^\"\\])*\"|'(?:\\.|[^'\\])+'")
WORD = re.compile(r"(?<![\w'.])[A-Za-z_]\w*(?!\.\.)")


def said_by_tool():
    """The words of the strings that the scripts write, but for those that are names of a port's."""
    found = set()
    for package in ("cbi_show", "cbi_hunt"):
        for name in os.listdir(os.path.join(TOOLS, package)):
            with open(os.path.join(TOOLS, package, name), encoding="utf-8") as file:
                tree = ast.parse(file.read()) if name.endswith(".py") else ast.Module([], [])
            asides = {id(one.value) for one in ast.walk(tree) if isinstance(one, ast.Expr)}
            found.update(word for one in ast.walk(tree) if isinstance(one, ast.Constant) and isinstance(one.value, str) and id(one) not in asides
                         for word in re.findall(r"[A-Za-z_]\w*", one.value) if not word.startswith("cbi_"))
    return found


def strange(text, sources):
    """The words of a text that are neither in the sources nor the tool's."""
    known = said_by_tool() | {word for one in sources for word in re.findall(r"[A-Za-z_]\w*", one)}
    return sorted(set(WORD.findall(STRING.sub(" ", ASIDE.sub(" ", text)))) - known)


class PortedCase(Case):
    """A case that wants a porter."""

    def setUp(self):
        super().setUp()
        if call(sys.executable, "-c", "import pycparser")[0] or not any(map(shutil.which, ("gcc", "clang", "cpp"))):
            self.skipTest("there is no pycparser here, or no preprocessor")


class Shown(PortedCase):
    """Hunts whose bug shows a name or an expression that the text has otherwise."""

    def hunted(self, texts, *words):
        """What is shown of a hunt, which has no word that isn't the author's or the tool's, on whatever it is shown."""
        chance = random.Random(7)
        for name, text in texts.items():
            self.write(name, text)
        for number in range(30):
            self.write(f"inputs/{number:02}", "".join(chance.choice("abcdefghijklmq") for _ in range(chance.randrange(2, 9))) + "\n" * ("labels.c" in texts))
        names = [name for name in texts if name.endswith(".c")]
        out, _ = self.call("cbi-hunt", *names, "--inputs", "inputs", "--rate", "1", "--jobs", "1", "--no-check", "--html", "page.html", "--keep", "kept", *words)
        sources = [*texts.values(), *names]
        page = re.sub(r"<(style|script).*?</\1>|<[^>]*>", " ", self.read("page.html").decode(), flags=re.DOTALL)
        log = json.loads(self.call("cbi-show", "--hunt", "kept", "--format", "sarif")[0])
        results = [json.dumps([one["message"], one.get("locations"), one.get("relatedLocations")]) for one in log["runs"][0]["results"]]
        self.assertTrue(results)
        shown = {"screen": out, "page": html.unescape(page), "sarif": " ".join(results), "quickfix": self.call("cbi-show", "--hunt", "kept", "--format", "quickfix")[0]}
        for what, text in shown.items():
            self.assertEqual(re.findall(r"\bcbi_\w+|\b(?:n|c|helper)_\d\b", text), [], what)
        self.assertEqual(strange(out, sources), [])
        self.assertEqual(strange(shown["quickfix"], sources), [])
        return out

    def titles(self, out):
        """The title of each bug, and what is told of further facts."""
        return re.findall(r"^(?:Perhaps by chance, |[A-Z]\. )*(\w+\.c:\d+ in .*)$", out, re.MULTILINE)

    def test_functions(self):
        """Two static functions of one name, one of them in the second file, and `main` with arguments."""
        out = self.hunted(TWO, "--args", "word", "--memory", "cells")
        self.assertEqual(self.titles(out), ["two.c:7 in helper: if (n == 'q') was true"])
        self.assertIn("\nit stopped (a call of abort) at: two.c:8 in helper: abort();\ncalled from: two.c:13 in check, from one.c:11 in main\n", out)
        self.assertIn("one.c:10, main: c == sum after c = getchar()", out)

    def test_variables_of_inner_blocks(self):
        """In a function with `goto` they have names of the port's."""
        out = self.hunted({"inner.c": INNER})
        self.assertEqual(self.titles(out), ["inner.c:10 in main: n > 2 after n = c % 4"])

    def test_members_in_bytes(self):
        """What is stored and loaded, and calls of the library, have the author's words, also behind a macro; of the line where one hides what was written."""
        out = self.hunted({"items.c": ITEMS}, "--memory", "bytes")
        self.assertEqual(self.titles(out), ["items.c:11 in add: p->text = c == 'z' ? NULL : strchr(\"abcdefghijklm\", c) stored NULL"])
        self.assertIn("items.c:22 in main, in strcmp: if (strcmp(p->text, \"m\") != 0)", out)
        self.assertIn("line 22, main: p->text was NULL", out)

    def test_values_of_members(self):
        """A member beside another one, as pairs of two variables are shown."""
        out = self.hunted({"table.c": MEMBERS}, "--values", "all", "--memory", "cells")
        self.assertEqual(self.titles(out), ["table.c:6 in drop: t->live < t->filled after t->live -= 1 + (c == 'q')"])

    def test_values_of_members_in_bytes(self):
        out = self.hunted({"table.c": MEMBERS}, "--values", "all", "--memory", "bytes")
        self.assertEqual(self.titles(out), ["table.c:6 in drop: t->live < t->filled after t->live -= 1 + (c == 'q')"])

    def test_values_of_elements(self):
        """An element that a condition reads, beside a constant: no letter comes behind `q`, so `>=` is true where `==` is, and has the smaller number."""
        out = self.hunted({"element.c": ELEMENTS}, "--values", "some")
        self.assertEqual(self.titles(out), ["element.c:8 in main: text[i] >= 113 'q' when read in for (i = 0; text[i]; i++)"])

    def test_floats(self):
        self.assertEqual(self.titles(self.hunted({"floats.c": FLOATS})), ["floats.c:4 in over: a > b was true"])

    def test_calls_by_pointers(self):
        self.assertEqual(self.titles(self.hunted({"pointers.c": POINTERS})), ["pointers.c:9 in main: the call at line 9 went to odd"])

    def test_labels(self):
        self.assertEqual(self.titles(self.hunted({"labels.c": LABELS}, "--memory", "bytes")), ["labels.c:12 in main: case 'x': case 0 was true"])

    def test_jumps(self):
        out = self.hunted({"left.c": LEFT})
        self.assertEqual(self.titles(out), ["left.c:7 in take: if (c == 'q') was true"])
        self.assertIn("line 17, main: sum += take(c); was left by longjmp (failing runs alone)\n", out)
        self.assertIn("also: line 14, main: if (setjmp(env)) was true (", out)

    def test_functions_that_have_copies(self):
        self.assertEqual(self.titles(self.hunted({"copies.c": COPIES}, "--memory", "cells")), ["copies.c:7 in xmalloc: if (p == NULL || n > 30) was true"])


class Maps(Case):
    """A text and its map by hand: what is told with names and notes, and without them in a map of the first form."""
    AUTHOR = ["static struct item *head;", "static int helper(struct item *p) { if (p->next) return 1; return 0; }", "int main(void) { return helper(head); }"]
    TEXT = "int cbi_load_word(int a) { if (a) return a; return 0; }\nint helper_2(int p) { if (cbi_load_word(p + 8)) return 1; return 0; }\nint main(void) { return helper_2(getchar()); }\n"
    HEAD, LINES = "files 1\na.c\nfunctions 1\ncbi_load_word\n", "lines 3\nadded\n1 2\n1 3\nend\n"
    NAMES = "names 1\nhelper_2 helper\nnotes 3\n2 22 head: if\n2 26 value pointer: p->next\n3 24 call number: helper(head)\n"

    def facts(self, map_text):
        """The facts of each line that are told, with their functions; and at which lines nothing is told of a site."""
        self.addCleanup(os.chdir, os.getcwd())
        os.chdir(self.room)
        self.write("a.c", "\n".join(self.AUTHOR))
        self.transform(self.TEXT, schemes="branches,returns")
        self.write("out.c.lines", map_text)
        program = files.read_program("prog.cbi")
        wording = Wording(files.read_source("prog.c"), program, cbi_show.where.ported("prog.c", "out.c.lines"))
        told = [wording.told(site, text) for site, text, _ in program.numbered().values() if text.endswith(("true", "== 0"))]
        return [(one.spot.line, one.function, one.fact.text()) for one in told if one], sorted(program.sites[site].line for site in wording.left_out())

    def test_with_names_and_notes(self):
        facts = [(2, "helper", "if (p->next) is true"), (2, "helper", "p->next is NULL"), (3, "main", "helper(head) returned 0")]
        self.assertEqual(self.facts("cbi-lines 2\n" + self.HEAD + self.NAMES + self.LINES), (facts, [1, 3]))

    def test_of_the_first_form(self):
        self.assertEqual(self.facts("cbi-lines 1\n" + self.HEAD + self.LINES), ([(2, "helper_2", "if (p->next) is true")], [1, 2, 3, 3]))

    def test_damaged_ones_are_refused(self):
        whole = "cbi-lines 2\n" + self.HEAD + self.NAMES + self.LINES
        for damaged in (whole.replace("names 1", "names 2"), whole.replace("lines 2", "lines 3", 1), whole.replace("2 22 head: if", "if"), whole.replace("helper_2 helper", "helper"),
                        whole.replace("notes 3", "notes 9"), whole[:-1]):
            self.assertNotEqual(damaged, whole)
            self.assertRaises(files.Fault, self.facts, damaged)


class Every(PortedCase):
    """All facts of all sites, whatever runs come there."""

    def wording(self, names, memory):
        self.addCleanup(os.chdir, os.getcwd())
        os.chdir(self.room)
        ported = cbi_port.port(names, memory=memory)
        self.write("out.c", ported.text)
        self.write("out.c.lines", ported.map_text())
        self.write("program", self.call("cbi", "transform", "--mode", "full", "out.c")[0])
        program = files.read_program("program")
        return program, Wording(files.read_source("out.c"), program, cbi_show.where.ported("out.c", "out.c.lines"))

    def programs(self):
        for name, text in {**TWO, **TEXTS}.items():
            self.write(name, text)
        for names in (["one.c", "two.c"], *([name] for name in TEXTS)):
            for memory in ("cells", "bytes"):
                yield names, memory, *self.wording(names, memory)

    def test_no_fact_has_a_word_of_the_ports(self):
        sources = [*TWO.values(), *TEXTS.values()]
        for names, memory, program, wording in self.programs():
            facts = {wording.told(site, text) for site, text, _ in program.numbered().values()} - {None}
            self.assertGreater(len(facts), 20, names)
            said = "\n".join(f"{told.function}: {told.fact.past()}" for told in facts)
            self.assertEqual(strange(said, sources), [], (names, memory))
            self.assertFalse([told for told in facts if told.spot.added])

    def test_what_the_port_added_is_left_out(self):
        """Each kind of it is there, and of none of its sites anything is told, but of a call by a pointer which function it went to."""
        kinds = [(["one.c", "two.c"], "cells", "main", ""), (["one.c", "two.c"], "bytes", "", "cbi_enter"),
                 (["items.c"], "cells", "cbi_strchr", ""), (["copies.c"], "cells", "cbi_new_pair", ""), (["items.c"], "bytes", "cbi_load_word", ""),
                 (["items.c"], "bytes", "cbi_compare_text", ""), (["floats.c"], "cells", "cbi_double_\\w+", ""), (["floats.c"], "cells", "cbi_long_\\w+", ""),
                 (["floats.c"], "cells", "over|main", "cbi_long_\\w+"), (["labels.c"], "bytes", "cbi_vsscanf|cbi_scan", ""), (["left.c"], "cells", "take|main", "cbi_jump\\w*"),
                 (["copies.c"], "cells", "", "cbi_copy_pair")]
        seen = {(tuple(names), memory): (program, wording) for names, memory, program, wording in self.programs()}
        for names, memory, function, word in kinds:
            program, wording = seen[tuple(names), memory]
            sites = [site for site in program.sites if re.fullmatch(function or r"\w+", site.function) and (not word or re.fullmatch(word, site.names[0]))]
            self.assertTrue(sites, (names, memory, function, word))
            self.assertLessEqual({site.number for site in sites}, wording.left_out(), (names, memory, function, word))
