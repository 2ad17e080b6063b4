"""Looks at the lines that a branch leads to, as test_tools does at the rest: small functions by hand, and the lines that gcov counts."""
import itertools
import os
import re
import shutil
import subprocess
import sys

import looking
from looking import Case, Hunting, call

sys.path.insert(0, looking.TOOLS)
import cbi_show.flow  # noqa: E402
import cbi_show.reach  # noqa: E402
import cbi_show.where  # noqa: E402
from cbi_show import files, source  # noqa: E402
from cbi_show.where import Spot  # noqa: E402

# What each node depends on, by hand: of a line of the function the lines of the branches with their truth. `for` has its three parts on one line.
LEADING = (
    ("an if with else", "int f(int a)\n{\n    if (a)\n        x = 1;\n    else\n        x = 2;\n    x = 3;\n}\n", {4: [(3, True)], 6: [(3, False)]}),
    ("behind a return", "int f(int a)\n{\n    if (a)\n        return 1;\n    x = 2;\n    return 3;\n}\n", {4: [(3, True)], 5: [(3, False)], 6: [(3, False)]}),
    ("behind a call that ends the run", "int f(int a)\n{\n    if (a) {\n        exit(1);\n    }\n    x = 2;\n}\n", {4: [(3, True)], 6: [(3, False)]}),
    # every way comes behind a loop that no way leaves otherwise
    ("a while", "int f(int a)\n{\n    while (a)\n        x = 1;\n    x = 2;\n}\n", {4: [(3, True)]}),
    ("a while that a return leaves", "int f(int a)\n{\n    while (a) {\n        if (b)\n            return 1;\n        x = 2;\n    }\n    return 3;\n}\n",
     {4: [(3, True)], 5: [(4, True)], 6: [(4, False)], 8: [(3, False)]}),
    ("continue", "int f(int a)\n{\n    while (a) {\n        if (b)\n            continue;\n        x = 2;\n    }\n}\n", {4: [(3, True)], 5: [(4, True)], 6: [(4, False)]}),
    # behind a loop with a break every way comes to the last line
    ("break", "int f(int a)\n{\n    while (a) {\n        if (b)\n            break;\n        x = 2;\n    }\n    x = 3;\n}\n", {4: [(3, True)], 5: [(4, True)], 6: [(4, False)]}),
    # the first round of a `do` depends on nothing
    ("a do", "int f(int a)\n{\n    if (c)\n        do {\n            x = 1;\n            if (b)\n                x = 2;\n        } while (a);\n}\n",
     {5: [(3, True)], 6: [(3, True)], 4: [(3, True)], 7: [(6, True)]}),
    ("a for", "int f(int a)\n{\n    for (a = 0; a < 3; a++)\n        x = 1;\n    x = 2;\n}\n", {3: [(3, True)], 4: [(3, True)]}),
    ("a for without an end", "int f(int a)\n{\n    for (;;) {\n        x = 1;\n        if (a)\n            return 2;\n        x = 3;\n    }\n}\n", {6: [(5, True)], 7: [(5, False)]}),
    # either arm of two leads there, so neither alone
    ("two ways", "int f(int a)\n{\n    while (c) {\n        if (a)\n            break;\n        if (b)\n            break;\n        return 1;\n    }\n    x = 2;\n}\n",
     {4: [(3, True)], 5: [(4, True)], 6: [(4, False)], 7: [(6, True)], 8: [(6, False)]}),
    ("a declaration", "int f(int a)\n{\n    if (a) {\n        int b;\n        int c = 1;\n        struct s *p = 0, *q;\n    }\n}\n", {5: [(3, True)], 6: [(3, True)]}),
    ("what no way comes to", "int f(int a)\n{\n    if (a)\n        return 1;\n    return 2;\n    if (b)\n        x = 3;\n}\n", {4: [(3, True)], 5: [(3, False)]}),
    ("no difference", "int f(int a)\n{\n    if (a)\n        ;\n    x = 1;\n}\n", {}),
)
# The lines that a call comes to through an arm alone, also by way of others.
ONLY = (
    ("a nest", "int f(int a)\n{\n    if (a) {\n        x = 1;\n        while (b) {\n            x = 2;\n        }\n    } else if (c)\n        x = 3;\n    x = 4;\n}\n",
     {(3, True): [4, 5, 6], (3, False): [8, 9], (5, True): [6], (5, False): [], (8, True): [9], (8, False): []}),
    ("an early return", "int f(int a)\n{\n    if (a)\n        return 1;\n    while (b)\n        x = 2;\n    return 3;\n}\n", {(3, True): [4], (3, False): [5, 6, 7], (5, True): [6], (5, False): []}),
    # what two branches lead to is of neither alone
    ("a chain of breaks", "int f(int a)\n{\n    do {\n        if (a)\n            break;\n        if (b)\n            break;\n        return 1;\n    } while (c);\n    x = 2;\n}\n",
     {(3, True): [], (3, False): [], (4, True): [5], (4, False): [6, 7, 8], (6, True): [7], (6, False): [8]}),
)


def flow_of(text):
    return cbi_show.flow.flows_of(source.Source(text.split("\n")))[0]


class Flows(Case):
    """Small functions, by hand."""

    def test_what_a_node_depends_on_alone(self):
        for name, text, due in LEADING:
            flow, found = flow_of(text), {}
            for node, arm in flow.leading().items():
                if flow.nodes[node].kind != cbi_show.flow.NEITHER:
                    found.setdefault(flow.nodes[node].line, set()).add((flow.source.tokens[arm.place].line, arm.truth))
            self.assertEqual({line: sorted(arms) for line, arms in found.items()}, due, name)

    def test_what_is_come_to_through_an_arm_alone(self):
        for name, text, due in ONLY:
            flow, found = flow_of(text), {}
            for node in flow.nodes:
                for truth in (True, False) if node.kind == cbi_show.flow.CONDITION else ():
                    found[node.line, truth] = sorted({flow.nodes[one].line for one in flow.only(cbi_show.flow.Arm(node.place, truth))})
            self.assertEqual(found, due, name)

    def test_deep_nests_and_long_functions(self):
        """198 branches within one another, and 3,000 statements one after another."""
        deep = "int f(int a)\n{\n" + "if (a)\n" * 198 + "x = 1;\n}\n"
        self.assertEqual(sorted(flow_of(deep).nodes[node].line for node in flow_of(deep).leading()), list(range(4, 202)))
        long = "int f(int a)\n{\n" + "if (a)\nreturn 1;\nx = 1;\n" * 1000 + "}\n"
        self.assertEqual(len(flow_of(long).leading()), 3000 - 1)


class Reaches(Case):
    """Lines of a person's text."""

    def reach(self, text):
        self.transform(text)
        lines = text.split("\n")
        return cbi_show.reach.Reach(source.Source(lines), files.read_program(self.path("prog.cbi")), cbi_show.where.one_file("prog.c", lines))

    # Line 6 has a site of its own, since `n` is a variable; lines 7 and 9 have none.
    SITES = "int a[3];\nint main(void)\n{\n    int n = getchar();\n    if (n) {\n        n = 3;\n        a[0] = n;\n    } else\n        a[1] = n;\n    a[2] = n;\n    return 0;\n}\n"

    def test_statements_with_a_site_of_their_own_are_not_named(self):
        reach = self.reach(self.SITES)
        found = {site.line: text for number, (site, text, _) in files.read_program(self.path("prog.cbi")).numbered().items() for one in reach.led().get(number, []) if one.spot.line == 7}
        self.assertEqual(found, {5: "if is true"})
        self.assertEqual(sorted(one.spot for led in reach.led().values() for one in led), [Spot("prog.c", 7), Spot("prog.c", 9)])

    def test_nothing_is_said_of_another_text(self):
        self.transform(self.SITES)
        reach = cbi_show.reach.Reach(source.Source(("\n" + self.SITES).split("\n")), files.read_program(self.path("prog.cbi")), cbi_show.where.one_file("prog.c", None))
        self.assertEqual((reach.led(), [reach.only(site, True) for site in reach.sites]), ({}, [[] for _ in reach.sites]))

    def test_a_line_that_was_made_twice_is_named_where_both_agree(self):
        """As where a port has the statements of a case in two branches: of line 2 one copy is in a branch and one isn't; both copies of line 3 are in the same."""
        text = "int a[3];\nint main(void)\n{\n    if (getchar()) {\n        a[0] = 1;\n        a[1] = 1;\n        a[1] = 1;\n    }\n    a[0] = 1;\n}\n"
        self.transform(text)
        lines = [("a.c", 9, False)] * 3 + [("a.c", 1, False), ("a.c", 2, False), ("a.c", 3, False), ("a.c", 3, False), ("", 0, True), ("a.c", 2, False), ("a.c", 4, False), ("", 0, True)]
        where = cbi_show.where.Where("a.c", {"a.c": ["", "", "", ""]}, lines)
        program = files.read_program(self.path("prog.cbi"))
        reach = cbi_show.reach.Reach(source.Source(text.split("\n")), program, where)
        self.assertEqual([one.spot for led in reach.led().values() for one in led], [Spot("a.c", 3)])
        site = next(site for site in program.sites if site.scheme == "branches")
        self.assertEqual((reach.only(site, True), reach.only(site, False)), ([3], []))

    def test_lines_in_words(self):
        where, two = cbi_show.where.one_file("a.c", [""] * 9), cbi_show.where.Where("a.c", {"a.c": [], "b.c": []})
        for spots, place, due in (([4], where, "line 4"), ([4, 5], where, "lines 4 and 5"), ([4, 5, 7], where, "lines 4, 5 and 7"), ([4, 5, 7, 8, 9], where, "lines 4, 5, 7 and 2 more"),
                                  ([4, 5], two, "a.c:4 and a.c:5")):
            self.assertEqual(cbi_show.reach.named_lines([Spot("a.c", line) for line in spots], place), due)


# Where it finds nothing it tells a sum of 5, and 6 is expected. Lines 20 and 21 have no site: the branch of line 8 leads there.
STOCK = """\
#include <stdio.h>
int stock[10];
int sold[10];
int closed;
int find(int wanted)
{
    int i;
    for (i = 0; i < 10; i++) {
        if (stock[i] == wanted)
            return i;
        if (stock[i] < 0) {
            closed = closed + 1;
        }
        /* what
           follows
           is
           the
           next */
    }
    stock[9] = 0;
    return -1;
}
int main(void)
{
    int c, n = 0, found;
    while ((c = getchar()) != EOF) {
        if (c < '0' || c > '9')
            continue;
        stock[n % 10] = c - '0';
        n++;
    }
    found = find(7);
    printf("%d %d\\n", found, stock[9]);
    if (found < 0) {
        sold[0] = 2;
        sold[1] = 3;
        printf("%d\\n", sold[0] + sold[1]);
    }
    return 0;
}
"""
INPUTS = ["".join(map(str, digits)) for digits in itertools.product((1, 7, 8), (2, 7), (3, 4, 7))]


def due_of(text):
    """What the program should write."""
    found = text.find("7")
    return f"{found} 0\n" + ("6\n" if found < 0 else "")


def by_gcov(case, text, inputs):
    """Of each input how often gcov counts each line that it counts."""
    case.write("counted/p.c", text)
    folder = case.path("counted")
    subprocess.run(["gcc", "--coverage", "-O0", "-w", "-o", "prog", "p.c"], cwd=folder, check=True)
    for data in inputs:
        for name in os.listdir(folder):
            if name.endswith(".gcda"):
                os.remove(os.path.join(folder, name))
        subprocess.run(["./prog"], input=data.encode(), cwd=folder, stdout=subprocess.DEVNULL, check=False)
        shown = subprocess.run(["gcov", "-t", "prog-p.gcda"], cwd=folder, stdout=subprocess.PIPE, stderr=subprocess.DEVNULL, check=True).stdout.decode()
        found = re.findall(r"^ *(\d+|#####|=====)\*?: *(\d+):", shown, re.MULTILINE)
        yield {int(line): int(count) if count.isdigit() else 0 for count, line in found}


def gcov_here():
    return all(map(shutil.which, ("gcc", "gcov")))


class Reached(Hunting):
    """What a hunt says of statements without a site."""

    def hunted(self):
        self.write("upper.c", STOCK)
        for data in INPUTS:
            self.write(f"words/{data}", data)
            self.write(f"right/{data}", due_of(data))
        return self.hunt("--inputs", "words", "--expect", "right", "--keep", "kept")

    def test_the_screen_names_the_lines_that_its_branch_leads_to(self):
        """By hand: four of the 18 inputs have no 7, and fail; then `for` ends by its condition, which leads to lines 20 and 21, and `if` of line 34 to the three behind it."""
        out = self.hunted()
        self.assertIn("upper.c:8 in find: for (i < 10) was false\n", out)
        self.assertIn("\nleads to: line 20: stock[9] = 0;\n          line 21: return -1;\n", out)
        self.assertIn("  1.000  line 8, find: for (i < 10) was false (4 of 4 failing, 0 of 14 others); leads to lines 20 and 21\n", out)
        self.assertIn("  1.000  line 20, find: stock[9] = 0; runs only where for (i < 10) was false at line 8 (4 of 4 failing, 0 of 14 others)\n", out)
        self.assertIn("  1.000  line 34, main: if (found < 0) was true (4 of 4 failing, 0 of 14 others); leads to lines 35, 36 and 37\n", out)
        self.assertTrue(all(len(line) <= 160 for line in out.split("\n") if not line.startswith("the run again")), out)
        page = self.call("cbi-show", "--hunt", "kept", "--format", "html")[0]
        self.assertIn("<dt>Leads to</dt><dd><ul><li>line 20: stock[9] = 0;</li><li>line 21: return -1;</li></ul></dd>", page)
        self.assertIn("4 of 4 failing, 0 of 14 others; leads to lines 20 and 21</span>", page)

    def test_lines_that_only_failing_runs_come_to_are_so_by_gcov(self):
        if not gcov_here():
            self.skipTest("there is no gcov here")
        failing = [data for data in INPUTS if "7" not in data]
        counts = dict(zip(INPUTS, by_gcov(self, STOCK, INPUTS)))
        out = self.hunted()
        named = {int(line) for line in re.findall(r"^  1\.000  line (\d+), \w+: .* runs only where .*\(4 of 4 failing, 0 of 14 others\)$", out, re.MULTILINE)}
        named |= {int(line) for said in re.findall(r"\(4 of 4 failing, 0 of 14 others\); leads to lines? (.*)$", out, re.MULTILINE) for line in re.findall(r"\d+", said)}
        self.assertEqual(named, {20, 21, 35, 36, 37})
        for line in named:
            self.assertEqual([data for data in INPUTS if counts[data][line]], failing, line)

    def test_each_branch_leads_where_gcov_counts(self):
        """Of each run, and of each branch, whatever failed: a statement that it leads to is counted exactly where it was taken, and what runs only there never elsewhere."""
        if not gcov_here():
            self.skipTest("there is no gcov here")
        program, lines = files.read_program(self.transform(STOCK)), STOCK.split("\n")
        reach = cbi_show.reach.Reach(source.Source(lines), program, cbi_show.where.one_file("prog.c", lines))
        led, looked = reach.led(), 0
        for data, counts in zip(INPUTS, by_gcov(self, STOCK, INPUTS)):
            self.call("cbi", "run", "--input", self.write("in", data), "--report", "report", "prog.cbi")
            sites = files.parse_report("report", self.read("report").decode()).run.sites
            for number, (site, text, counters) in program.numbered().items():
                taken = any(sites.get(site.number, (0, 0, 0))[counter] for counter in counters)
                for one in led.get(number, []):
                    self.assertEqual(counts[one.spot.line] > 0, taken, (data, site.line, text, one))
                    looked += 1
                for line in reach.only(site, text.endswith("true")) if not taken else ():
                    self.assertEqual(counts.get(line, 0), 0, (data, site.line, text, line))
        self.assertGreaterEqual(looked, 18 * 8)

    SWITCH = """\
#include <stdio.h>
#include <string.h>
typedef struct { int kind; int left; } item;
item items[4];
int main(void)
{
    int c, n = 0;
    while ((c = getchar()) != EOF && c != '\\n') {
        switch (c) {
        case 'a':
            items[n % 4].kind = 1;
            break;
        case 'b':
            items[n % 4].left--;
            /* fall through */
        default:
            items[n % 4].kind = 2;
        }
        n++;
    }
    printf("%d %d\\n", items[0].kind, items[0].left);
    return 0;
}
"""

    def test_lines_of_a_port_are_those_of_its_files(self):
        """`b` loses one of the first item where it shouldn't, at line 14."""
        if not gcov_here() or call(sys.executable, "-c", "import pycparser")[0]:
            self.skipTest("there is no gcov here, or no pycparser")
        inputs = ["".join(letters) for letters in itertools.product("abx", repeat=3)]
        self.write("upper.c", self.SWITCH)
        for data in inputs:
            self.write(f"words/{data}", data)
            self.write(f"right/{data}", f"{1 if data[0] == 'a' else 2} 0\n")
        out = self.hunt("--inputs", "words", "--expect", "right", "--no-check")
        self.assertIn("line 13, main: case 'b' was true (9 of 9 failing, 10 of 18 others); leads to line 14\n", out)
        for data, counts in zip(inputs, by_gcov(self, self.SWITCH, inputs)):
            self.assertEqual(counts[14] > 0, "b" in data)
