"""Looks at what cbi-port leaves out since nothing reaches it (tools/cbi_port/unreached.py): by hand for each.

`checks/ports` runs it behind test_kinds; it wants no executable.
"""
import os
import re
import sys
import tempfile
import unittest

sys.path.insert(0, os.path.join(os.path.dirname(os.path.dirname(os.path.dirname(os.path.abspath(__file__)))), "tools"))
sys.dont_write_bytecode = True
sys.setrecursionlimit(20000)
import cbi_port  # noqa: E402
from cbi_port.program import prelude_text  # noqa: E402
from cbi_port.reader import prelude_index  # noqa: E402

SENTENCE = "left out, since nothing reaches "
FORK = "#include <unistd.h>\n"

# What it is, the text, and which functions and variables are left out.
ROWS = [
    ("a function that isn't static", "int f(void) { return 1; } int main(void) { return 0; }", "f"),
    ("functions that call each other", "int g(void); int f(void) { return g(); } int g(void) { return f(); } int main(void) { return 0; }", "f g"),
    ("a call of a call", "int g(void) { return 1; } int f(void) { return g(); } int main(void) { return f(); }", ""),
    ("an address in what is reached", "int f(void) { return 1; } int main(void) { int (*p)(void) = f; return p(); }", ""),
    ("an address in what isn't reached", "int f(void) { return 1; } int (*p)(void) = f; int main(void) { return 0; }", "f p"),
    ("a variable in an initialiser", "int a = 1; int *b = &a; int **c = &b; int main(void) { return **c; }", ""),
    ("a parameter that hides a name", "int a = 1; int f(int a) { return a; } int main(void) { return f(2); }", "a"),
    ("a local that hides a name behind its own declarator alone", "int a = 1; int main(void) { int b = a; { int a = b; return a; } }", ""),
    ("a name behind the block that hides it", "int a = 1; int main(void) { { int a = 2; if (a == 3) return 1; } return a; }", ""),
    ("a parameter of a prototype hides nothing behind it", "int f(int x) { return x; } int main(void) { int (*p)(int f) = 0; return p == 0 ? f(1) : 0; }", ""),
    ("a member hides nothing", "int f(int x) { return x; } int main(void) { struct { int f; } s; s.f = 1; return f(s.f); }", ""),
    ("a member is no mention", "int a = 1; int main(void) { struct { int a; } s = { .a = 1 }; return s.a; }", "a"),
    ("a loop's own variable", "int i = 7; int main(void) { int n = 0; for (int i = 0; i < 3; i++) n += i; return n; }", "i"),
    ("a name behind the loop that hides it", "int i = 7; int main(void) { for (int i = 0; i < 3; i++) ; return i; }", ""),
    ("an extern declaration in a block", "int a = 1; int main(void) { int b = 2; { extern int a; b += a; } return b; }", ""),
    ("an extern declaration in a block that another name hides", "int a = 1; int main(void) { int a = 2; { extern int a; return a; } }", ""),
    ("what an alias stands for", 'int f(void) { return 1; } int g(void) __attribute__((alias("f"))); int main(void) { return g(); }', ""),
    ("an alias that nobody mentions", 'int f(void) { return 1; } int g(void) __attribute__((alias("f"))); int main(void) { return 0; }', "f"),
    ("what runs behind main", "__attribute__((destructor)) void f(void) { } int main(void) { return 0; }", ""),
    ("a word that keeps a variable", "int a __attribute__((section(\"rows\"))) = 1; __attribute__((used)) int b = 2; int c = 3; int main(void) { return 0; }", "c"),
    ("a tag stays without its variable", "struct s { int m; enum { A = 3 } k; } v; int main(void) { struct s t; t.m = A; return t.m; }", "v"),
    ("two tags of one declaration", "struct s { int m; } v, *w; struct s *x; int main(void) { return sizeof(struct s) + (w == 0); }", "v x"),
    ("a length of a struct that stays", "int a[3]; struct s { char c[sizeof a]; }; int main(void) { return sizeof(struct s); }", ""),
    ("a type of what is named", "int f(int x) { return x; } int main(void) { __typeof__(f(1)) y = 2; return y; }", ""),
    ("a type outside functions", "int a = 1; typedef __typeof__(a) t; int main(void) { t b = 2; return b; }", ""),
    ("a label's name", "int here = 1; int main(void) { goto here; here: return 0; }", "here"),
    ("types behind the parameters", "int a = 1; int f(a) int a; { return a; } int g(a) int a; { return a; } int main(void) { return f(2); }", "a g"),
]


class Unreached(unittest.TestCase):
    def setUp(self):
        room = tempfile.TemporaryDirectory(prefix="cbi-ports-")
        self.addCleanup(room.cleanup)
        self.room = room.name

    def write(self, name, text):
        path = os.path.join(self.room, name)
        with open(path, "w") as out:
            out.write(text)
        return path

    def port(self, *texts):
        return cbi_port.port([self.write(f"file{number}.c", text) for number, text in enumerate(texts, 1)])

    def sentences(self, ported):
        return [it[len(SENTENCE):] for it in ported.liberties if it.startswith(SENTENCE)]

    def test_rows(self):
        for what, text, gone in ROWS:
            with self.subTest(what):
                found = self.sentences(self.port(text))
                self.assertEqual(set(re.findall(r"\w+", found[0].partition("(")[2])) if found else set(), set(gone.split()))

    def test_sentence(self):
        """Few are named, and many are counted; a function within one counts with it."""
        text = "int main(void) { return 0; }\n"
        self.assertEqual(self.sentences(self.port(text)), [])
        self.assertEqual(self.sentences(self.port("int f(void) { return 1; }\n" + text)), ["it: 1 function of 1 file (f)"])
        self.assertEqual(self.sentences(self.port("int a, b; int a;\nextern int c;\nint g(void);\ntypedef int F(void); F h;\nint f(void) { int k(void) { return 1; } return k(); }\n" + text)),
                         ["them: 1 function and 2 variables of 1 file (a, b, f)"])
        many = "".join(f"int f{number}(void) {{ return 1; }}\n" for number in range(5))
        self.assertEqual(self.sentences(self.port(many + text, "static int f0(void) { return 2; }\n")), ["them: 6 functions of 2 files"])

    def test_files(self):
        """A static name is of its file, and another one of all files."""
        ported = self.port("int shared(void);\nstatic int own(void) { return shared(); }\nint main(void) { return own(); }\n",
                           FORK + "static int own(void) { return fork(); }\nint other(void) { return own(); }\nstatic int deep(void) { return 4; }\nint shared(void) { return deep(); }\n")
        self.assertEqual(self.sentences(ported), ["them: 2 functions of 1 file (own, other)"])
        self.assertIn("int deep(void) { return 4; }", ported.text.decode())
        self.assertNotIn("other", ported.text.decode())
        ported = self.port("extern int a;\nint main(void) { return a; }\n", "static int b = 3;\nint *c = &b;\nint a = 2;\n", "static int a = 5;\nint d(void) { return a; }\n")
        self.assertEqual(self.sentences(ported), ["them: 1 function and 3 variables of 2 files (b, c, a, d)"])
        self.assertIn("int a = 2;", ported.text.decode())

    def test_structs(self):
        """A struct that nothing names isn't written; one is that another one has, or only a pointer names."""
        ported = self.port("struct s { int a; }; struct t { struct s b; }; struct u { struct s c; }; struct v { int d; };\nint main(void) { struct t x = { { 1 } }; struct v *y = 0; return x.b.a + (y == 0); }\n")
        self.assertEqual(set(re.findall(r"struct (\w) \{", ported.text.decode())), {"s", "t", "v"})

    def test_names_of_the_prelude(self):
        """No two names of the library's own text become one."""
        names = [prelude_text(name) for name in prelude_index()]
        self.assertGreater(len(names), 400)
        self.assertEqual([name for name in names if names.count(name) > 1], [])

    def test_static_declared_before(self):
        """What is declared static is so where its definition doesn't say it (6.2.2p5)."""
        ported = self.port("static int f(void);\nint main(void) { return f(); }\nint f(void) { return 1; }\n", FORK + "int f(void) { return fork(); }\n")
        self.assertEqual(self.sentences(ported), ["it: 1 function of 1 file (f)"])

    def test_lines(self):
        """What stays is on its lines."""
        ported = self.port("int f(void)\n{\n    return 1;\n}\nint a = 1;\nint main(void)\n{\n    return 3;\n}\n")
        rows = ported.text.decode().split("\n")
        self.assertEqual([row.strip() for row in rows[4:9]], ["", "int main(void)", "{", "return 3; }", ""])
        self.assertEqual([(it.line, it.added) for it in ported.lines[5:8]], [(line, False) for line in range(6, 9)])

    def test_refused_within(self):
        """What is refused in a function that is left out is no matter, whatever the function gives."""
        for head in ("int", "struct s *", "struct s", "enum e *", "static void", "unsigned char **"):
            for body in ('{ __asm__("nop"); }', "{ __float128 x = 1; }", '{\n__asm__("nop");\n#pragma pack(wide)\n}', "{ int a = ({ __asm__(\"nop\"); 2; }); }"):
                ported = self.port(f"struct s {{ int a; }};\nenum e {{ A }};\n{head} f(void)\n{body}\nint main(void) {{ struct s t = {{ A }}; return t.a; }}\n")
                self.assertEqual(self.sentences(ported), ["it: 1 function of 1 file (f)"])

    def refused(self, *texts):
        with self.assertRaises(cbi_port.Refused) as caught:
            self.port(*texts)
        return [(it.line, it.construct) for it in caught.exception.problems]

    def test_refused(self):
        """What can't be read is refused wherever it stands, what is reached by it too; and so is a text without `main`."""
        self.assertEqual([line for line, _ in self.refused("int f(void) { return 1 +; }\nint main(void) { return 0; }\n")], [1])
        self.assertEqual(self.refused(FORK + "int g(void) { return fork(); }\nint f(void) { return g() +; }\nint main(void) { return 0; }\n")[0], (2, "`fork`"))
        self.assertEqual(self.refused(FORK + "int f(void) { return fork(); }\n"), [(2, "`fork`"), (2, "no `main`")])
        self.assertEqual(self.refused("static void f(void) { __asm__(\"nop\"); } int main(void) { __asm__(\"hlt\"); return 0; }\n"), [(1, "`asm`")])
        self.assertEqual(self.refused("int f(void);\n#pragma weak f\nint f(void) { return 1; }\nint main(void) { return 0; }\n")[0][1], "`#pragma weak f` (line 2)")


if __name__ == "__main__":
    unittest.main()
