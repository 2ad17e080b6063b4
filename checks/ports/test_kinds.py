"""Looks at kinds of pointers (tools/cbi_port/kinds.py): of what type a `void *` is found to point to objects, by hand for each.

`checks/ports` runs it between test_ports and test_bounds; it wants no executable.
"""
import os
import sys
import tempfile
import unittest

sys.path.insert(0, os.path.join(os.path.dirname(os.path.dirname(os.path.dirname(os.path.abspath(__file__)))), "tools"))
sys.dont_write_bytecode = True
sys.setrecursionlimit(20000)
import cbi_port  # noqa: E402
from cbi_port import files  # noqa: E402
from cbi_port.lines import Token  # noqa: E402
from cbi_port.program import Program  # noqa: E402
from cbi_port.reader import read  # noqa: E402
from cbi_port.trees import kind  # noqa: E402
from cbi_port.types import Void, spelled  # noqa: E402

HEAD = ("#include <stdarg.h>\n#include <stdio.h>\n#include <stdlib.h>\n#include <string.h>\nstruct row { int id; short size; };\nstruct other { char *name; };\n"
        "static struct row rows[4];\nstatic char letters[9];\nstatic unsigned char bytes[9];\nstatic int numbers[4];\n")
NONE = ""

# What is found, the text, and of each name what it points to; NONE where nothing is concluded.
ROWS = [
    ("what a parameter is given and made", "void f(void *a) { struct row *r = a; r->id = 1; } int main(void) { f(&rows[1]); return 0; }", {"a": "struct row"}),
    ("a parameter that is given two types", "void f(const void *a) { (void)a; } int main(void) { f(rows); f(letters); return 0; }", {"a": NONE}),
    ("characters with and without a sign", "void f(const void *a) { const char *c = a; putchar(*c); } int main(void) { f(letters); f(bytes); return 0; }", {"a": "char"}),
    ("numbers with and without a sign", "void f(void *a) { unsigned *n = a; *n = 1; } int main(void) { f(numbers); return 0; }", {"a": NONE}),
    ("what only goes from one to the next", "void g(void *b) { struct row *r = b; r->id = 1; } void f(void *a) { g(a); } int main(void) { void *c = rows; f(c); return 0; }",
     {"a": "struct row", "b": "struct row", "c": "struct row"}),
    ("a member, and a result", "struct box { void *held; } box; void *get(void) { return box.held; } int main(void) { struct other *o; box.held = malloc(sizeof *o); o = get(); o->name = 0; return 0; }",
     {"held": "struct other"}),
    ("two structs with a member each", "struct box { void *held; } box; struct bag { void *kept; } bag; int main(void) { box.held = rows; bag.kept = letters; return 0; }",
     {"held": "struct row", "kept": "char"}),
    ("a function by its pointer", "void f(void *a) { (void)a; } void (*p)(void *b) = f; int main(void) { p(rows); return 0; }", {"a": "struct row", "b": "struct row"}),
    ("two functions by one pointer", "void f(void *a) { (void)a; } void g(void *b) { (void)b; } void (*p)(void *); int main(void) { p = f; p(rows); p = g; g(letters); return 0; }", {"a": NONE, "b": NONE}),
    ("a declaration before the definition", "void f(void *a); int main(void) { f(rows); return 0; } void f(void *b) { (void)b; }", {"a": "struct row", "b": "struct row"}),
    ("elements that are sorted", "int by(const void *a, const void *b) { return a < b; } int main(void) { qsort(rows, 4, sizeof rows[0], by); return 0; }", {"a": "struct row", "b": "struct row"}),
    ("what is searched for beside the elements", "int by(const void *a, const void *b) { (void)a; (void)b; return 0; } int main(void) { return bsearch(letters, rows, 4, sizeof rows[0], by) != NULL; }",
     {"a": "char", "b": "struct row"}),
    ("by the address of a pointer", "void f(void **a) { (void)a; } int main(void) { struct row *r = rows; f((void **)&r); return 0; }", {"a": "struct row"}),
    ("from a list of arguments", "void f(int n, ...) { va_list l; void *a; va_start(l, n); a = va_arg(l, void *); va_end(l); memcpy(rows, a, sizeof rows); } int main(void) { f(1, letters); return 0; }", {"a": NONE}),
    ("a parameter without a prototype", "void f(a) void *a; { memcpy(rows, a, sizeof rows); } int main(void) { f(rows); return 0; }", {"a": NONE}),
    ("a function that is called without a prototype", "void f(); int main(void) { f(letters); return 0; } void f(a) void *a; { memcpy(rows, a, sizeof rows); }", {"a": NONE}),
    ("memory alone", "int main(void) { void *a = malloc(8); return a == NULL; }", {"a": NONE}),
    ("memory that one type is stored to", "int main(void) { void *a = realloc(numbers, 8); int *n = a; return n == NULL; }", {"a": "int"}),
    ("copies of both", "void f(void *a, const void *b) { memcpy(a, b, sizeof(struct row)); } int main(void) { struct row r; f(&r, rows); return r.id; }", {"a": "struct row", "b": "struct row"}),
    ("a copy between two types", "void f(void *a, const void *b) { memcpy(a, b, 4); } int main(void) { f(letters, numbers); return 0; }", {"a": NONE, "b": NONE}),
    ("one that is moved, of characters", "void *f(void *a) { return a + 1; } int main(void) { char *c = f(letters); return *c; }", {"a": "char"}),
    ("one that is moved, of structs", "void *f(void *a) { return a + 1; } int main(void) { struct row *r = f(rows); return r->id; }", {"a": NONE}),
    ("pointers to pointers", "void f(void *a) { char **c = a; *c = letters; } int main(void) { char *t[2]; f(t); return 0; }", {"a": "char *"}),
]

# A text that two kinds of pointers leave as it is: it goes to bytes, and says why.
BYTES = [
    ("a struct by its characters", "void put(void *to, const void *from, int n) { memcpy(to, from, n); } int main(void) { put(letters, rows, 8); return letters[0]; }", "`memcpy` of a `void *`"),
    ("a struct by its characters, and back", "void *f(void *a) { char *c = a; return c + 4; } int main(void) { short *s = f(rows); return *s; }", "a `void *` to a `struct row` as characters"),
    ("a struct or characters, that are moved", "void *f(int n, void *a) { char *c = a; struct row *r = a; return n ? (void *)(c + 1) : r; } int main(void) { struct row *r = f(0, rows); return *(char *)f(1, letters) + r->id; }",
     "a computed `char *` that becomes a `void *`"),
    ("a number by its characters", "int f(const void *a) { return ((const unsigned char *)a)[1]; } int main(void) { return f(numbers); }", "a `void *` to a `int` as characters"),
    ("a number, or characters", "int f(const void *a) { const char *c = a; return *c; } int main(void) { return f(letters) + f(&numbers[1]); }", "a `void *` to a `int` as characters"),
    ("pointers by their characters", "int f(void *a) { return *((char *)a + 1); } int main(void) { char *t[2] = { letters, 0 }; return f(t); }", "a `void *` to a `char *` as characters"),
    ("a struct that is written by characters", "void f(void *a, int n) { char *c = a; while (n-- > 0) *c++ = 0; } int main(void) { f(rows, 8); return rows[0].id; }", "a `void *` to a `struct row` as characters"),
    ("a struct that goes through two functions", "int g(void *b) { return *(signed char *)b; } int f(void *a) { return g(a); } int main(void) { return f(rows); }", "a `void *` to a `struct row` as characters"),
    ("a struct by a function's pointer", "int f(void *a) { return *(char *)a; } int (*p)(void *b) = f; int main(void) { return p(rows); }", "a `void *` to a `struct row` as characters"),
    ("a struct that a member points to", "struct box { void *held; } box; int main(void) { box.held = rows; return ((char *)box.held)[1]; }", "a `void *` to a `struct row` as characters"),
    ("a struct beside a list of anything", "struct box { void *held; } box; int see(void *a) { char *c = a; return *c; } int main(void) { struct row *r; box.held = letters; see(box.held); box.held = rows; r = box.held; return see(r); }",
     "a `void *` to a `struct row` as characters"),
    ("memory of a number by its characters", "int main(void) { void *a = malloc(4); int *n = a; *n = 258; return *(char *)a; }", "a `void *` to a `int` as characters"),
    ("a struct that is copied and moved in one statement", "void *f(void *a, const void *b) { return memcpy(a, b, sizeof(struct row)), a + 4; } int main(void) { short *s = f(rows, rows + 1); return *s; }", "a moved `void *`"),
    ("one that is copied and stepped", "void *f(void *a, const void *b) { return memcpy(a, b, sizeof(struct row)), a += 8; } int main(void) { struct row *s = f(rows, rows + 1); return s->id; }", "a moved `void *`"),
    ("one that is copied and counted", "void *f(void *a, const void *b) { return memcpy(a, b, sizeof(struct row)), a++, &a[7]; } int main(void) { struct row *s = f(rows, rows + 1); return s->id; }", "a moved `void *`"),
    ("one of which the size is asked", "int f(void *a, const void *b) { return memcpy(a, b, sizeof(struct row)), (int)sizeof *a; } int main(void) { return f(rows, rows + 1); }", "`*` of a `void *`"),
    ("a struct that is moved by bytes", "void *f(void *a) { return a + 4; } int main(void) { short *s = f(rows); return *s; }", "a moved `void *`"),
]
CELLS = [
    ("characters that are moved, beside others", "void *f(void *a) { char *c = a; return c + 4; } void g(void *r) { (void)r; } int main(void) { char *s = f(letters); g(rows); g(numbers); return *s; }"),
    ("characters that are copied", "void put(void *to, const void *from, int n) { memcpy(to, from, n); } int main(void) { put(letters, bytes, 8); return letters[0]; }"),
    ("a struct that is handed on", "int g(const void *b) { const struct row *r = b; return r->id; } int f(void *a, const void *b) { memcpy(a, b, sizeof(struct row)); return a != b ? g(a) : 0; } int main(void) { struct row r; return f(&r, rows); }"),
    ("a struct that is cast and handed on", "int g(const void *b) { const struct row *r = b; return r->id; } int f(void *a) { return g((char *)a); } int main(void) { return f(rows); }"),
    ("a struct that is compared", "int main(void) { void *a = rows; char *c = letters; return (char *)a == c || !(char *)a; }"),
    ("memory of two types by one function", "void *get(unsigned n) { void *p = malloc(n); if (!p) exit(1); return p; } void drop(void *p) { free(p); } int main(void) { char *c = get(2); struct row *r = get(sizeof *r); c[0] = 0; r->id = 1; drop(c); drop(r); return 0; }"),
    ("memory of two calls by one variable", "int main(void) { void *p = malloc(2); char *c = p; int *n; p = malloc(8); n = p; *c = 1; *n = 2; return *c + *n; }"),
    ("a list of anything", "struct box { void *held; } one, two; void *get(struct box *b) { return b->held; } int main(void) { char *c; struct row *r; one.held = letters; two.held = rows; c = get(&one); r = get(&two); return c[1] + r->id; }"),
    ("what a number says", "int f(int n, const void *a) { return n ? *(const char *)a : ((const struct row *)a)->id; } int main(void) { return f(0, rows) + f(1, letters); }"),
    ("what is called for each", "void each(void *a, int (*f)(void *)) { f(a); } int text(void *a) { char *c = a; return *c; } int row(void *a) { struct row *r = a; return r->id; } int main(void) { each(letters, text); each(rows, row); return 0; }"),
    ("structs of characters alone", "struct name { char a[4]; unsigned char b; } name; int f(const void *a) { return ((const char *)a)[4]; } int main(void) { return f(&name); }"),
    ("memory of which the type comes later", "int main(void) { void *a = calloc(2, 4); int *n = a; return n[1]; }"),
]


def pointers(node):
    """The declarators of `void *` in a tree, by the name that is declared."""
    found = {}
    stack = [(None, node)]
    while stack:
        name, it = stack.pop()
        name = getattr(it, "name", None) if kind(it) in ("Decl", "Typename") and getattr(it, "name", None) else name
        if kind(it) == "PtrDecl" and kind(it.type) == "TypeDecl" and getattr(it.type.type, "names", None) == ["void"]:
            found.setdefault(name, it)
        stack.extend((name, child) for _, child in it.children())
    return found


class Kinds(unittest.TestCase):
    """What is concluded of a text, and what comes of it."""

    def setUp(self):
        room = tempfile.TemporaryDirectory()
        self.addCleanup(room.cleanup)
        self.path = os.path.join(room.name, "a.c")

    def write(self, text):
        with open(self.path, "w") as file:
            file.write(HEAD + text + "\n")

    def translated(self, text):
        """A translation, and its declarators of `void *`."""
        self.write(text)
        tokens, problems = [Token("mark", "", self.path, 1)], []
        unit = read(self.path, [], tokens, problems, [])
        self.assertEqual(problems, [])
        program = Program([unit], tokens, "cells", None, False)
        files.run(program)
        program.kinds.settle()
        return program, pointers(unit.tree)

    def test_classes(self):
        for what, text, due in ROWS:
            with self.subTest(what):
                program, found = self.translated(text)
                for name, type_ in due.items():
                    concluded = program.kinds.kind(Void(at=found[name]))
                    self.assertEqual(NONE if concluded is None else spelled(concluded), type_, f"{what}: {name}")

    def test_bytes(self):
        for what, text, why in BYTES:
            with self.subTest(what):
                self.write(text)
                told = [it for it in cbi_port.port([self.path]).liberties if "memory is kept as bytes" in it]
                self.assertEqual(len(told), 1, what)
                self.assertIn(why, told[0])

    def test_refused(self):
        """Asked for cells, each look at an object by its characters is refused at its line."""
        self.write("int f(const void *a)\n{\n    const char *c = a;\n    return *c;\n}\nint g(void *a)\n{\n    return f(a) + ((signed char *)a)[1];\n}\nint main(void) { return g(rows); }")
        with self.assertRaises(cbi_port.Refused) as caught:
            cbi_port.port([self.path], memory="cells")
        what, first = "a `void *` to a `struct row` as characters", HEAD.count("\n")
        self.assertEqual([(it.line, it.construct) for it in caught.exception.problems], [(first + 3, what), (first + 8, what)])

    def test_cells(self):
        for what, text in CELLS:
            with self.subTest(what):
                self.write(text)
                self.assertEqual([it for it in cbi_port.port([self.path]).liberties if "memory is kept" in it], [], what)


if __name__ == "__main__":
    unittest.main(verbosity=1)
