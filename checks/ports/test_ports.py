"""Looks at tools/cbi-port: what it takes does as gcc makes it, and what is written by hand; what it refuses is told by line.

A program of table/ says behind its text what it does: `refused LINE WORDS`, or what it reads, its words, what it
writes and its status (or trap), and files that it may open. Without these it writes nothing and ends with 0. `memory cells` or `memory bytes` says
how its memory is kept, and `flags` what gcc is told more. `seen by cells` and `seen by bytes` name the places of which pairs see the values with `--values all`.
"""
import ast
import os
import re
import shlex
import subprocess
import sys
import unittest

sys.path.insert(0, os.path.dirname(os.path.dirname(os.path.abspath(__file__))))
import looking  # noqa: E402
from looking import CBI, Case, EXAMPLES, TOOLS, TOP  # noqa: E402

sys.path.insert(0, TOOLS)
sys.setrecursionlimit(20000)
import cbi_port  # noqa: E402
from cbi_port import builds, check  # noqa: E402
from cbi_port.files import too_large  # noqa: E402
from ports_trees import BUILDS_32, Trees  # noqa: E402, F401

TABLE = os.path.join(TOP, "checks", "ports", "table")
TURNS = 100000000
STUMBLED = "what cbi-port doesn't take"  # a refusal that comes of an exception of Python's: a defect of the tool, and never what is expected


class Due:
    """What the end of a program's text says of it."""

    def __init__(self, text):
        self.refused = [(int(line), words) for line, words in re.findall(r"(?m)^(?:/\* )?refused (\d+) (.*?)\s*(?:\*/)?$", text)]
        self.named = [(name, data.encode("latin-1")) for name, data in re.findall(r"(?ms)^/\* file (\S+)\n(.*?)\*/", text)]
        self.given = (re.search(r"(?s)/\* reads\n(.*?)\*/", text) or ["", ""])[1].encode()
        words = re.search(r"(?m)^/\* words (.*) \*/$", text)
        self.words = shlex.split(words[1]) if words else []
        written = re.search(r"(?s)/\* writes\n(.*?)(status|trap) (-?\d+) \*/", text)
        self.output = written[1].encode() if written else b""
        self.status = int(written[3]) if written and written[2] == "status" else 0
        self.memory = (re.search(r"(?m)^/\* memory (cells|bytes) \*/$", text) or ["", ""])[1]
        self.flags = shlex.split((re.search(r"(?m)^/\* flags (.*) \*/$", text) or ["", ""])[1])
        self.trap = int(written[3]) if written and written[2] == "trap" else None
        self.seen = {memory: set(texts.split("; ")) for memory, texts in re.findall(r"(?m)^/\* seen by (cells|bytes) (.*) \*/$", text)}


class Programs(Case):
    """The table."""

    def run_in(self, mode, ported, due, name):
        """A run of the text, compiled in a mode: output, and status or trap."""
        program = self.path("prog.cbi")
        self.write("prog.c", ported.text)
        with open(program, "wb") as out:
            done = subprocess.run([CBI, "transform", "--mode", mode, self.path("prog.c")], stdout=out, stderr=subprocess.PIPE, check=False)
        self.assertEqual(done.returncode, 0, f"{name} {mode}: {done.stderr.decode()}")
        return check.run_ported(CBI, program, due.given, self.room, TURNS)

    def hold(self, name, text, ported):
        due = Due(text)
        for mode in ("plain", "full", "sampled"):
            got = self.run_in(mode, ported, due, name)
            stopped = f"trap {due.trap}" if due.trap is not None else ""
            self.assertEqual((got.output, got.stopped), (due.output, stopped), f"{name} {mode}")
            if due.trap is None:
                self.assertEqual(got.status, due.status, f"{name} {mode}")
        if due.trap is None and BUILDS_32:
            built = builds.compiled([os.path.join(TABLE, name)], [], self.room, "built", ["-O0", *due.flags])
            native = builds.run_native(built, due.words, due.given, due.named)
            self.assertEqual((native.output, native.status), (due.output, due.status), f"{name} by gcc")

    def test_programs(self):
        for name in sorted(os.listdir(TABLE)):
            if not name.endswith(".c"):
                continue
            with open(os.path.join(TABLE, name), encoding="latin-1") as file:
                text = file.read()
            due = Due(text)
            with self.subTest(name):
                if due.refused:
                    with self.assertRaises(cbi_port.Refused) as caught:
                        cbi_port.port([os.path.join(TABLE, name)], args=due.words)
                    told = [(problem.line, f"{problem.construct}: {problem.advice}") for problem in caught.exception.problems]
                    self.assertFalse([row for _, row in told if STUMBLED in row], name)
                    for line, words in due.refused:
                        self.assertTrue(any(at == line and words in row for at, row in told), f"{name}: {line} {words} in {told}")
                    self.assertLessEqual({at for at, _ in told}, {line for line, _ in due.refused}, f"{name}: {told}")
                    continue
                for memory in ("auto", "bytes"):
                    if memory == "bytes" and due.trap is not None:
                        continue
                    ported = cbi_port.port([os.path.join(TABLE, name)], args=due.words, memory=memory, named=due.named, wrap="-fwrapv" in due.flags)
                    if memory == "auto" and due.memory:
                        self.assertEqual("bytes" if any("as bytes" in it for it in ported.liberties) else "cells", due.memory, name)
                    self.hold(name, text, ported)

    def test_values(self):
        """Programs of whose members, elements and dereferences pairs see the values do what they do without that, and the places are those that stand there."""
        for name in sorted(os.listdir(TABLE)):
            if not name.startswith("values_seen_"):
                continue
            with open(os.path.join(TABLE, name), encoding="latin-1") as file:
                text = file.read()
            due = Due(text)
            self.assertIn("bytes", due.seen, name)
            for memory, places in due.seen.items():
                with self.subTest(name, memory=memory):
                    ported = cbi_port.port([os.path.join(TABLE, name)], args=due.words, memory=memory, values="all")
                    self.assertEqual({author for seen, author in ported.names.items() if seen.startswith("cbi_seen_")}, places)
                    self.hold(name, text, ported)

    def seen_with(self, name, values, **more):
        """The text with a way of values, and the places that are seen."""
        ported = cbi_port.port([name], values=values, **more)
        return ported, {author for seen, author in ported.names.items() if seen.startswith("cbi_seen_")}

    def test_values_near_conditions(self):
        """How far a place is from a condition: a is read in one, b of another function too, c is handed to a call, and d is only stored."""
        name = self.write("near.c", "struct s { int a, b, c, d; };\nstatic int is(struct s *x) { return x->b ? 1 : 0; }\nint main(void)\n{\n    struct s y = { 1, 2, 3, 4 };\n"
                          "    y.b = 3;\n    y.c = 4;\n    y.d = 5;\n    if (y.a && is(&y))\n        return abs(y.c);\n    return y.d;\n}\n")
        near = {"x->b", "y.b", "y.a"}
        for memory in ("cells", "bytes"):
            self.assertEqual([self.seen_with(name, values, memory=memory)[1] for values in ("none", "some", "all")], [set(), near, near | {"y.c", "y.d"}])

    def test_values_within_limits(self):
        """Where the sites would be too many, places that no condition reads are left out first; that is reported, and the text is taken."""
        rows = [f"int v{number};" for number in range(120)] + ["static struct s { int " + ", ".join(f"m{number}" for number in range(40)) + "; } s;", "int main(void)", "{"]
        rows += [f"    s.m{20 + number % 20} = {number % 5};" for number in range(120)] + [f"    if (s.m{number % 20} > 7) v{number % 120}++;" for number in range(240)] + ["    return v3;", "}"]
        name = self.write("many.c", "\n".join(rows) + "\n")
        ported, seen = self.seen_with(name, "all")
        self.assertLess(seen, {f"s.m{number}" for number in range(20)})
        self.assertTrue(seen)
        self.assertEqual(ported.liberties, [f"of 40 values of members, elements and dereferences {len(seen)} are seen, since the text or its sites would be too many with more"])
        self.write("many.ported.c", ported.text)
        out, _ = self.call("cbi", "transform", "--mode", "full", "many.ported.c")
        sites = int(re.search(r"(?m)^sites (\d+)$", out)[1])
        self.assertLess(sites, 65537)
        self.assertGreater(sites, 50000)

    def test_lines(self):
        """Each line of a program is its own in the text: what it has there is a part of it, or was added on the first one."""
        name = os.path.join(TABLE, "statements_of_all_kinds.c")
        ported = cbi_port.port([name])
        rows = ported.text.decode("latin-1").split("\n")
        self.assertEqual(len(rows), len(ported.lines) + 1)
        with open(name, encoding="latin-1") as file:
            source = file.read().split("\n")
        for number, row in enumerate(source[:16], 1):
            self.assertEqual(ported.lines[number - 1], cbi_port.Line(name, number, False))
            for word in set(re.findall(r"\bprintf\(\"[^\"]*\"", row)):
                self.assertIn(word, rows[number - 1])
        self.assertEqual(cbi_port.read_map(ported.map_text()), (ported.lines, ported.added, ported.names, ported.notes))


    def test_lines_before_a_static_variable(self):
        """A static variable of a function stands elsewhere, and the function's lines stay theirs."""
        name = self.write("few.c", "int getchar(void);\nint main(void)\n{\n    int c = getchar();\n    if (c == 'a')\n        c++;\n    static int few[2] = { 1, 2 };\n    return few[c & 1];\n}\n")
        for memory in ("cells", "bytes"):
            ported = cbi_port.port([name], memory=memory)
            found = [ported.lines[number] for number, row in enumerate(ported.text.decode("latin-1").split("\n")) if "if (c == 'a')" in row]
            self.assertEqual(found, [cbi_port.Line(name, 5, False)])

    def test_operators_that_jumps_leave(self):
        """`&&`, `||` and `?:` with a call that `longjmp` may leave are statements in the text, with a note of the operator."""
        name = self.write("joined.c", "#include <setjmp.h>\nint getchar(void);\nint puts(const char *);\nstatic jmp_buf out;\n"
                          "static int checked(int n) { if (n > 90) longjmp(out, n); return n; }\nint main(void)\n{\n    int c = getchar();\n    if (setjmp(out))\n        return 1;\n"
                          "    if (c > 'a' && checked(c) < 'f')\n        puts(\"between\");\n    if (c == 'x' || checked(c))\n        puts(\"one\");\n    c = c ? checked(c) : 0;\n    return c;\n}\n")
        for memory in ("cells", "bytes"):
            ported = cbi_port.port([name], memory=memory)
            signs = [(note.line, note.kind, note.text) for note in ported.notes if note.text in ("&&", "||", "?")]
            self.assertEqual(signs, [(11, "head", "&&"), (13, "turned", "||"), (15, "head", "?")])

    def test_lines_of_copies(self):
        """The copies of a function that gives memory have its lines: six types are asked of `xmalloc`."""
        name = os.path.join(TABLE, "memory_by_wrappers.c")
        ported = cbi_port.port([name])
        rows = ported.text.decode("latin-1").split("\n")
        made = [row for row, line in zip(rows, ported.lines) if line == cbi_port.Line(name, 11, False) and "p = " in row]
        self.assertEqual(len(made), 6, made)
        self.assertFalse([it for it in ported.added if "xmalloc" in it])

    def test_lines_of_functions_within_functions(self):
        """A function that stood within another one has its own lines, and the one around it has none of these."""
        name = os.path.join(TABLE, "functions_within_functions.c")
        ported = cbi_port.port([name])
        rows = ported.text.decode("latin-1").split("\n")
        self.assertEqual([line for row, line in zip(rows, ported.lines) if "asked_" in row and "++" in row], [cbi_port.Line(name, 18, False)])
        self.assertEqual([line for row, line in zip(rows, ported.lines) if "= &asked" in row], [cbi_port.Line(name, 21, False)])
        self.assertFalse([it for it in ported.added if "compare" in it])


class Worked(Case):
    """The worked port of examples/ported, by the tool and by hand."""

    def sites(self, text, added=(), lines=None):
        """How many sites a text has in lines that aren't added, and in functions that aren't."""
        self.write("count.c", text)
        out, _ = self.call("cbi", "transform", "--mode", "full", "count.c")
        names, count = [], 0
        for row in out.split("\n"):
            words = row.split(" ")
            if words[0] == "function":
                names.append(words[1])
            elif words[0] == "site":
                line = int(words[3])
                if names[int(words[2])] not in added and not (lines and lines[line - 1].added):
                    count += 1
        return count

    def test_stock(self):
        name = os.path.join(EXAMPLES, "ported", "stock_whole.c")
        ported = cbi_port.port([name], args="first-line")
        self.assertEqual(ported.liberties, ["what is written to stderr is left out (--stderr joins it)"])
        with open(os.path.join(EXAMPLES, "ported", "stock_ported.c"), "rb") as file:
            by_hand = file.read()
        inputs = []
        for few in range(4):
            rows = [str(few)] if few else [""]
            for step in range(6 * few + 3):
                rows += [f"in {'abcdefgh'[step % 7] * (step % 5 + 1)} {step * 7 % 31}", f"out {'abcdefgh'[step % 3]} {step % 4}"]
            rows += ["show", "sum"] + (["in x1 4"] if few == 2 else ["what"] if few == 3 else [])
            inputs.append((str(few), ("\n".join(rows) + "\n").encode()))
        checked = check.compare(builds.Files([name]), ported, inputs, CBI, "first-line", TURNS)
        self.assertEqual((checked.equal, checked.differences), (4, []))
        hand = cbi_port.Ported(by_hand, [], [], [], {})
        with_hand = check.transformed(CBI, hand, self.room)[0]
        with_tool = check.transformed(CBI, ported, self.path())[0]
        for _, data in inputs[1:]:
            left, right = (check.run_ported(CBI, program, data, self.room, TURNS) for program in (with_hand, with_tool))
            self.assertEqual(left.output, right.output)
        mine, theirs = self.sites(ported.text, ported.added, ported.lines), self.sites(by_hand)
        self.assertLessEqual(mine, 1.1 * theirs, f"{mine} sites by the tool, {theirs} by hand")

    def test_stock_with_floats(self):
        """The program as it was, with its `double`."""
        name = os.path.join(EXAMPLES, "ported", "stock.c")
        ported = cbi_port.port([name], args="first-line")
        rows = ["in nuts 12", "in bolts 30", "out nuts 5", "show", "sum", "in nuts 1", "sum"]
        given = [(str(some), ("\n".join(["", *rows[:some]]) + "\n").encode()) for some in (0, 3, 5, 7)]
        checked = check.compare(builds.Files([name]), ported, given, CBI, "first-line", TURNS)
        self.assertEqual((checked.equal, checked.differences), (4, []))


class Files(Case):
    """Several files."""

    def test_linkage(self):
        self.write("shared.h", "#ifndef SHARED\n#define SHARED\nstruct item { int n; struct item *next; };\nextern int total;\nint add(struct item);\n"
                   "static inline int twice(int n) { return n > 0 ? 2 * n : 0; }\n#endif\n")
        first = self.write("first.c", "#include <stdio.h>\n#include \"shared.h\"\nstatic int hidden = 3;\nstatic int helper(void) { return hidden; }\n"
                           "int main(void)\n{\n    struct item a = { 4, 0 };\n    printf(\"%d %d %d\\n\", add(a), helper(), twice(5));\n    return total;\n}\n")
        second = self.write("second.c", "#include \"shared.h\"\nint total = 1;\nstatic int hidden = 20;\nstatic int helper(void) { return hidden++; }\n"
                            "int add(struct item i)\n{\n    if (i.n > twice(1))\n        total += i.n + helper();\n    return total;\n}\n")
        ported = cbi_port.port([first, second], ["-I" + self.room])
        checked = check.compare(builds.Files([first, second], ["-I" + self.room]), ported, [("none", b"")], CBI, None, TURNS)
        self.assertEqual(checked.equal, 1, checked.differences)
        self.transform(ported.text.decode("latin-1"))
        of_second = [index for index, line in enumerate(ported.lines, 1) if line.file == second and line.line == 7]
        self.assertEqual(len(of_second), 1)
        with open(self.path("prog.cbi")) as file:
            rows = [row.split(" ") for row in file.read().split("\n") if row.startswith("site branch")]
        self.assertTrue(any(int(row[3]) == of_second[0] and row[5] == "if" for row in rows))
        self.assertTrue(any(line.file.endswith("shared.h") and line.line == 6 for line in ported.lines))

    def test_structs_that_a_header_names_first(self):
        """A struct that is named before it is defined is one type in all files that have the header. Where two files define it for themselves, each has its own."""
        self.write("list.h", "typedef struct item *link;\ntypedef struct item { int n; link next; } item_t;\ntypedef struct hidden *handle;\nstruct later;\n"
                   "int sum(link);\nhandle open_one(int);\nint asked(handle);\nint of_later(struct later *);\nint own(void);\n")
        self.write("later.h", "struct later { char c; int n; };\n")
        main = self.write("main.c", "#include <stdio.h>\n#include \"list.h\"\n#include \"later.h\"\nstruct own { int a, b, c; };\n"
                          "int main(void)\n{\n    item_t b = { 4, 0 }, a = { 3, &b };\n    link p = &a;\n    struct later l = { 'x', 7 };\n"
                          "    printf(\"%d %d %d %d %d %d\\n\", sum(p), p->next->n, asked(open_one(5)), of_later(&l), own(), (int)sizeof(struct own));\n    return 0;\n}\n")
        more = self.write("more.c", "#include <stdlib.h>\n#include \"list.h\"\n#include \"later.h\"\nstruct hidden { char tag; int n; };\nstruct own { char c; };\n"
                          "int sum(link l)\n{\n    int n = 0;\n    for (; l; l = l->next)\n        n += l->n;\n    return n + (sizeof(item_t) == sizeof *l);\n}\n"
                          "handle open_one(int n)\n{\n    handle h = malloc(sizeof *h);\n    h->n = n;\n    h->tag = 'h';\n    return h;\n}\n"
                          "int asked(handle h) { int n = h->n + h->tag; free(h); return n; }\nint of_later(struct later *l) { return l->n + l->c; }\nint own(void) { return sizeof(struct own); }\n")
        third = self.write("third.c", "#include \"list.h\"\nstruct hidden { int deep[4]; };\nint third(void) { struct hidden h = { { 1, 2, 3, 4 } }; handle p = &h; return p->deep[3] + (int)sizeof *p; }\n")
        for memory in ("cells", "bytes"):
            ported = cbi_port.port([main, more, third], ["-I" + self.room], memory=memory)
            checked = check.compare(builds.Files([main, more, third], ["-I" + self.room]), ported, [("none", b"")], CBI, None, TURNS)
            self.assertEqual(checked.equal, 1, checked.differences)

    def test_what_runs_before_main_in_each_file(self):
        """Those of a lesser number first, whichever file has them; those of one number in the order of the files."""
        main = self.write("main.c", "#include <stdio.h>\nextern int known[4], count;\nstatic void own(void) __attribute__((constructor));\n"
                          "static void own(void) { known[count++] = 1; }\n"
                          "int main(void)\n{\n    for (int i = 0; i < count; i++)\n        printf(\"%d \", known[i]);\n    puts(\"main\");\n    return 0;\n}\n")
        more = self.write("more.c", "#include <stdio.h>\nint known[4], count;\n__attribute__((constructor)) static void own(void) { known[count++] = 2; }\n"
                          "__attribute__((constructor(101))) static void first(void) { known[count++] = 3; }\n"
                          "__attribute__((destructor)) static void last(void) { puts(\"last\"); }\n")
        ported = cbi_port.port([main, more])
        native = builds.run_native(builds.compiled([main, more], [], self.room, "built", ["-O0"]), [], b"")
        self.assertEqual((native.output, native.status), (b"3 1 2 main\nlast\n", 0))
        checked = check.compare(builds.Files([main, more]), ported, [("none", b"")], CBI, None, TURNS)
        self.assertEqual(checked.equal, 1, checked.differences)

    def test_other_names_in_each_file(self):
        """A name that stands for another does so in all files; one that a file defines is what it defines there."""
        main = self.write("main.c", "#include <stdio.h>\nint shown(int), own(int);\nextern int number;\nint main(void)\n{\n    number = 4;\n    printf(\"%d \", shown(1));\n"
                          "    printf(\"%d\\n\", own(2));\n    return number;\n}\nint own(int n) { return 100 * n; }\n")
        more = self.write("more.c", "static int hidden;\nstatic int kept(int n) { return n + hidden; }\nint shown(int) __attribute__((alias(\"kept\")));\n"
                          "int own(int) __attribute__((weak, alias(\"kept\")));\nextern int number __attribute__((alias(\"hidden\")));\n")
        native = builds.run_native(builds.compiled([main, more], [], self.room, "built", ["-O0"]), [], b"")
        self.assertEqual((native.output, native.status), (b"5 200\n", 4))
        for files in ([main, more], [more, main]):
            checked = check.compare(builds.Files(files), cbi_port.port(files), [("none", b"")], CBI, None, TURNS)
            self.assertEqual(checked.equal, 1, checked.differences)

    def test_what_stands_within_structs_of_headers(self):
        """Enumerators and tags within a struct of a header are declared in each file that has it, also where the header's path is written otherwise."""
        os.mkdir(self.path("more"))
        self.write("undo.h", "typedef struct state *handle;\ntypedef struct { enum { ADD = 5, DEL } kind; struct place { int at; } where; } undo_t;\nint told(undo_t *, handle);\n")
        main = self.write("more/main.c", "#include <stdio.h>\n#include \"undo.h\"\nhandle made(int);\nint main(void)\n{\n    undo_t u = { DEL, { 3 } };\n    struct place p = { 7 };\n"
                          "    printf(\"%d %d %d\\n\", told(&u, made(20)), p.at, ADD);\n    return 0;\n}\n")
        more = self.write("more.c", "#include <stdlib.h>\n#include \"undo.h\"\nstruct state { int n; };\nhandle made(int n)\n{\n    handle h = malloc(sizeof *h);\n    h->n = n;\n    return h;\n}\n"
                          "int told(u, h) undo_t *u; handle h;\n{\n    struct place p = u->where;\n    return (u->kind == DEL ? 100 * p.at : ADD) + h->n;\n}\n")
        for memory in ("cells", "bytes"):
            ported = cbi_port.port([main, more], ["-I" + self.path("more/..")], memory=memory)
            checked = check.compare(builds.Files([main, more], ["-I" + self.path("more/..")]), ported, [("none", b"")], CBI, None, TURNS)
            self.assertEqual(checked.equal, 1, checked.differences)
            self.transform(ported.text.decode("latin-1"))
            self.assertEqual(self.call("cbi", "run", "prog.cbi")[0], "320 7 5\n")

    def test_what_is_told_of_the_system(self):
        """`perror` writes glibc's texts where stderr is joined, and that there is no environment is told."""
        name = self.write("told.c", "#include <errno.h>\n#include <stdio.h>\n#include <stdlib.h>\nint main(void)\n{\n    char *home = getenv(\"NOWHERE_AT_ALL\");\n    errno = ENOENT;\n"
                          "    perror(\"prog\");\n    errno = 200;\n    perror(NULL);\n    return home != NULL;\n}\n")
        for memory in ("cells", "bytes"):
            ported = cbi_port.port([name], stderr=True, memory=memory)
            self.assertEqual(ported.liberties, ["getenv gives NULL, whatever the environment has"])
            got = check.run_ported(CBI, check.transformed(CBI, ported, self.room)[0], b"", self.room, TURNS)
            built = builds.compiled([name], [], self.room, "built", ["-O0"])
            by_gcc = subprocess.run([built], stdout=subprocess.PIPE, stderr=subprocess.STDOUT, check=False)
            self.assertEqual((got.output, got.status), (by_gcc.stdout, by_gcc.returncode))
            self.assertEqual(by_gcc.stdout, b"prog: No such file or directory\nUnknown error 200\n")

    def test_files_that_are_named(self):
        """The files that are named and the one input by its name, also where that is a word of its first line: each run as gcc's, in a folder that has them."""
        name = self.write("sum.c", "#include <stdio.h>\nint main(int argc, char **argv)\n{\n    FILE *f = argc > 1 ? fopen(argv[argc - 1], \"r\") : stdin, *g = fopen(\"table\", \"rb\");\n"
                          "    int n, sum = 0, c;\n    if (!f) { puts(\"none\"); return 2; }\n    while (fscanf(f, \"%d\", &n) == 1) sum += n;\n    printf(\"%d\\n\", sum);\n"
                          "    if (g) while ((c = getc(g)) != EOF) putchar(c);\n    while ((c = getchar()) != EOF) sum++;\n    return sum;\n}\n")
        table = [("table", b"a\0b\xff\n")]
        rows = [(["numbers"], table, b"1 2 3\n"), ("first-line", table, b"numbers\n1 2 3\n"), (None, table, b"4 5\n"), (["-q"], table, b"7\n"), (["-q", "numbers"], [], b"8\n"),
                (["table", "other"], [*table, ("other", None)], b"9 1\n")]
        for memory in ("cells", "bytes"):
            for args, named, given in rows:
                ported = cbi_port.port([name], args=args, memory=memory, named=named)
                checked = check.compare(builds.Files([name]), ported, [("given", given)], CBI, args, TURNS, named)
                self.assertEqual(checked.equal, 1, f"{memory} {args}: {checked.differences}")

    def test_names_of_functions_of_floats(self):
        """A variable that has the name of a function of floats brings none of the prelude's functions of floats in; a call does."""
        for body, due in (("int log = getchar(); printf(\"%d\\n\", log);", False), ("printf(\"%d\\n\", (int) sqrt(getchar()));", True)):
            name = self.write("named.c", "#include <math.h>\n#include <stdio.h>\nint main(void)\n{\n    " + body + "\n    return 0;\n}\n")
            self.assertEqual("double" in cbi_port.port([name]).text.decode(), due, body)

    def test_not_there(self):
        with self.assertRaises(cbi_port.Refused) as caught:
            cbi_port.port([self.write("a.c", "#include \"none.h\"\nint main(void) { return 0; }\n")])
        self.assertEqual((caught.exception.problems[0].line, caught.exception.problems[0].construct), (1, "`#include` of none.h"))
        with self.assertRaises(OSError):
            cbi_port.port([self.path("none.c")])
        # All headers that aren't there at once, in all files, and of the rest what doesn't come of them.
        first = self.write("c.c", "#include <none/at_all.h>\n#include <unistd.h>\n#include \"mine.h\"\nint main(void)\n{\n    WINDOW *w = initscr();\n    if (fork())\n        pause();\n    return mine(w);\n}\n")
        second = self.write("d.c", "#include \"mine.h\"\n#include <math.h>\nint mine(int w) { return j0(2) > 1 + refused(w); }\n")
        with self.assertRaises(cbi_port.Refused) as caught:
            cbi_port.port([first, second])
        self.assertEqual([(os.path.basename(it.file), it.line, it.construct) for it in caught.exception.problems],
                         [("c.c", 1, "`#include` of none/at_all.h"), ("c.c", 3, "`#include` of mine.h"), ("d.c", 1, "`#include` of mine.h"),
                          ("c.c", 7, "`fork`"), ("c.c", 8, "`pause`"), ("d.c", 3, "`j0`")])
        with self.assertRaises(cbi_port.Refused) as caught:
            cbi_port.port([self.write("b.c", "int f(void) { return 0; }\n")])
        self.assertEqual(caught.exception.problems[0].construct, "no `main`")


    def test_what_is_too_large_is_told(self):
        """`cbi` takes 100,000 tokens and 1,048,576 bytes: the first text has as many tokens, the next one two more, the last two as many bytes and one more."""
        texts = (b"1," * 50000, b"1," * 50001, b" " * 1048576, b" " * 1048577)
        told = [[it.construct for it in too_large(cbi_port.Ported(text, [], [], [], {}), [])] for text in texts]
        what = "a program whose text has {} may be"
        self.assertEqual(told, [[], [what.format("100,002 tokens, of which 100,000")], [], [what.format("1,048,577 bytes, of which 1,048,576")]])
        # Three lines of a program: 60,000 tokens of one file, 30,003 of another, 15,000 that were added.
        lines = [cbi_port.Line("a.c", 1, False), cbi_port.Line("b.c", 7, False), cbi_port.Line("", 0, True)]
        text = b"\n".join((b"1," * 30000, b"1," * 15001 + b"1", b"1," * 7500))
        self.assertEqual([it.construct for it in too_large(cbi_port.Ported(text, lines, [], [], {}), [])],
                         [what.format("105,003 tokens, of which 100,000") + " (a.c 57 %, b.c 28 %, what is added 14 %)"])


class OwnBuild(Case):
    """The text beside the program as its author builds it, and beside one of 32 bits."""

    # What it does is said by the first byte: `+` adds a million to a long, w times 2,200; `/` overruns an array; `d` and `t` call themselves so many times.
    TEXT = ("#include <stdio.h>\n#include <stdlib.h>\nstatic int deep(int n) { int below = n ? deep(n - 1) : 0; return below + 1; }\nint main(void)\n{\n    long sum = 0;\n    int c = getchar(), n;\n"
            "    if (scanf(\"%d\", &n) != 1) return 3;\n    if (c == '+') while (n-- > 0) sum += 1000000;\n    if (c == '/') { char *p = malloc(4); p[n] = 7; sum = p[n]; free(p); }\n    if (c == 'd') sum = deep(n);\n"
            "    if (c == 'u') { unsigned long m = 4294967295ul; sum = m + n > 7; }\n    printf(\"%ld\\n\", sum);\n    return 0;\n}\n")

    def setUp(self):
        super().setUp()
        if not BUILDS_32:
            self.skipTest("gcc builds nothing for 32 bits here")
        self.name = self.write("a.c", self.TEXT)

    def compared(self, rows, flags=()):
        ported = cbi_port.port([self.name], wrap="-fwrapv" in flags)
        return check.compare(builds.Files([self.name], flags=flags), ported, [(row, row.encode()) for row in rows], CBI, None, TURNS)

    def test_what_comes_of_32_bits_is_never_explained(self):
        """2,200 millions are more than a long of 32 bits has, and 4,294,967,296 more than an unsigned one: the author's build of 64 bits has both. The overrun is one in either."""
        found = self.compared(["+ 7", "+ 2200", "/ 4", "u 1", "u 9"])
        self.assertEqual((found.equal, found.total, found.wide, found.narrow), (2, 5, ["+ 2200", "u 1"], True))
        self.assertEqual([(it.name, it.explained, it.kind) for it in found.differences], [("+ 2200", "", check.WIDTH), ("/ 4", "trap 6 where a sanitizer stops", ""), ("u 1", "", check.WIDTH)])
        self.assertEqual([it.what for it in found.differences if it.kind],
                         ["the output differs first at byte 1, line 1; gcc's ends with 0, the text's with trap 1; a sanitizer stops gcc's of 32 bits alone",
                          "the output differs first at byte 1, line 1; gcc's of 32 bits does what the text does"])
        self.assertEqual(found.notes(), ["2 inputs of 5 do something else in your own build than in one of 32 bits, which the text is: + 2200, u 1. No difference there is called explained."])
        self.assertEqual(found.summary(), "2 of 5 outputs as gcc's, 1 run trap 6 where a sanitizer stops")

    def test_a_program_of_32_bits_has_one_build(self):
        """Where the author's flags say 32 bits, the two builds do the same, and a sanitizer stops his too."""
        found = self.compared(["+ 2200", "u 1"], flags=["-m32"])
        self.assertEqual((found.equal, found.wide, [it.explained for it in found.differences]), (1, [], ["trap 1 where a sanitizer stops"]))

    def test_numbers_that_wrap(self):
        """With -fwrapv nothing is undefined where a sum wraps: the text does what gcc's of 32 bits does."""
        found = self.compared(["+ 2200"], flags=["-m32", "-fwrapv"])
        self.assertEqual((found.equal, found.differences), (1, []))

    def test_the_limit_of_calls_is_the_tool_s(self):
        """Five hundred calls and main, and then a thousand; and without an end, where gcc's build ends too."""
        found = self.compared(["d 500", "d 1000", "d 100000000"])
        self.assertEqual([(it.name, it.explained, it.kind) for it in found.differences], [("d 1000", "", check.LIMIT), ("d 100000000", "trap 12 where a sanitizer stops", "")])
        self.assertEqual(found.notes(), ["1 run needs more than 512 calls at once, this tool's limit (trap 12), and gcc's goes on: d 1000."])

    def test_the_scripts(self):
        """`--check` tells which inputs differ by the width first, and ends with 1; a hunt has the line, and flags of one's own."""
        for name in ("+ 7", "+ 2200", "/ 4", "d 1000"):
            self.write(f"in/{name[:1].replace('/', 'o')}{name[2:]}", name)
        wide = "1 input of 4 does something else in your own build than in one of 32 bits, which the text is: {}+2200. No difference there is called explained.\n"
        deep = "1 run needs more than 512 calls at once, this tool's limit (trap 12), and gcc's goes on: {}d1000.\n"
        out, _ = self.call("cbi-port", "--check", "--inputs", "in", "a.c", due=1)
        self.assertTrue(out.startswith(wide.format("in/") + deep.format("in/")), out)
        self.assertTrue(out.endswith("\n1 of 4 outputs as gcc's, 1 run trap 6 where a sanitizer stops\n"), out)
        out, _ = self.call("cbi-port", "--check", "--inputs", "in", "--cflags", "-m32 -O2 -fwrapv", "a.c", due=1)
        self.assertTrue(out.startswith(deep.format("in/") + "in/d1000: "), out)
        self.assertTrue(out.endswith("\n2 of 4 outputs as gcc's, 1 run trap 6 where a sanitizer stops\n"), out)
        out, _ = self.call("cbi-hunt", "a.c", "--inputs", "in", due=None)
        self.assertIn("\nported: 6 library functions; 1 of 4 outputs as gcc's, 1 run trap 6 where a sanitizer stops\n" + wide.format("") + deep.format(""), out)
        out, err = self.call("cbi-hunt", "a.c", "--inputs", "in", "--wrap", due=None)
        self.assertIn("cbi-hunt: signed integers wrap where they overflow (--wrap), as gcc's -fwrapv has it\n", err)


class Command(Case):
    """The script."""

    def test_it_runs_on_an_old_python(self):
        folder = os.path.join(TOOLS, "cbi_port")
        for name in os.listdir(folder):
            if name.endswith(".py"):
                with open(os.path.join(folder, name), encoding="utf-8") as file:
                    text = file.read()
                ast.parse(text, name, feature_version=(3, 8))
                self.assertLess(text.count("\n"), 500, name)

    def test_calls(self):
        self.write("a.c", "#include <stdio.h>\ntypedef int n;\nint main(void)\n{\n    n c = getchar();\n    printf(\"%03d\\n\", c);\n    return 0;\n}\n")
        out, err = self.call("cbi-port", "a.c")
        self.assertIn("ported: 1 typedef, 2 library functions", err)
        self.call("cbi-port", "a.c", "-o", "b.c")
        self.assertEqual(self.read("b.c").decode(), out)
        lines, added, _, _ = cbi_port.read_map(self.read("b.c.lines").decode())
        self.assertEqual(lines[4], cbi_port.Line("a.c", 5, False))
        self.assertIn("cbi_printf", added)
        self.write("in/x", "A")
        self.write("in/below/y", "")
        out, _ = self.call("cbi-port", "--check", "--inputs", "in", "a.c")
        self.assertEqual(out, "2 of 2 outputs as gcc's\n")
        self.write("f.c", "#include <stdio.h>\nint main(void)\n{\n    FILE *f = fopen(\"list\", \"r\");\n    int c;\n    while (f && (c = getc(f)) != EOF) putchar(c);\n    return 0;\n}\n")
        self.write("a list", "one\n")
        out, _ = self.call("cbi-port", "--check", "--file", "list=a list", "f.c")
        self.assertEqual(out, "1 of 1 outputs as gcc's\n")
        for said, what in (("list", "--file: `list` is no NAME=PATH"), ("list=none at all", "No such file or directory: 'none at all'")):
            _, err = self.call("cbi-port", "--file", said, "f.c", due=2)
            self.assertIn(what, err)
        self.write("c.c", "int main(void)\n{\n    double f = j0(1);\n    goto x;\n}\n")
        out, err = self.call("cbi-port", "c.c", due=1)
        self.assertEqual(out, "")
        self.assertEqual([row.split(": ")[1] for row in err.strip().split("\n")], ["c.c:3", "c.c:4"])


if __name__ == "__main__":
    looking.heed_interrupts()
    looking.CBI = CBI = os.path.abspath(sys.argv.pop(1))
    if not BUILDS_32:
        print("checks/ports: gcc builds nothing with -m32 here (Debian: gcc-multilib), so the table isn't compared with what gcc makes of it")
    unittest.main(verbosity=1)
