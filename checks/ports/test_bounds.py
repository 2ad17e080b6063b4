"""Looks at tools/cbi-port where memory is kept as bytes: an access to what is no object's is a trap where AddressSanitizer stops, and nothing else is.

`checks/ports` runs it behind test_ports.
"""
import os
import re
import shutil
import subprocess
import sys
import unittest

sys.path.insert(0, os.path.dirname(os.path.dirname(os.path.abspath(__file__))))
import looking  # noqa: E402
from looking import Case, TOOLS  # noqa: E402

sys.path.insert(0, TOOLS)
sys.setrecursionlimit(20000)
import cbi_port  # noqa: E402
from cbi_port import builds, check  # noqa: E402

TURNS = 100000000
BYTES = "char *bytes_of_an_int(void) { static int n; char *p = (char *)&n; p[1] = 3; return p; }\n"  # what cells can't keep
HEAD = ("#include <alloca.h>\n#include <stdio.h>\n#include <stdlib.h>\n#include <string.h>\nint table[5] = { 1, 2, 3, 4, 5 };\nint zeros[100];\nconst char *words[2] = { \"one\", \"two\" };\n"
        "struct node { int n; struct node *next; };\nstruct pair { char name[8]; int n; } pairs[2];\n"
        "int local(int i) { int a[4] = { 1, 2, 3, 4 }; char b[6] = \"hello\"; int x = 3, *p = &x; return a[i] + b[1] - 'e' + *p - 3; }\n"
        "int *gone(void) { int a[3] = { 7, 8, 9 }; int *p = a; return p; }\n"
        "int open_array(int n, int i) { int a[n]; memset(a, 0, n * sizeof *a); return a[i]; }\n"
        "int on_the_stack(int n, int i) { char *p = alloca(n); memset(p, 1, n); return p[i]; }\n"
        "struct node *chain(int n) { struct node *list = NULL, *it; while (n--) { it = malloc(sizeof *it); it->n = n; it->next = list; list = it; } return list; }\n")

# What is done, the trap that it comes to by docs/PORTING.md, and what AddressSanitizer calls it. Where neither stops, both are empty.
OVER, GONE, FREED = 6, 7, 10
HEAP, STACK, GLOBAL = "heap-buffer-overflow", "stack-buffer-overflow", "global-buffer-overflow"
ROWS = [
    ("a byte behind a block", "char *p = malloc(10); p[9] = 1; puts(\"in\"); p[10] = 1;", OVER, HEAP),
    ("a byte before a block", "char *p = malloc(10); p[0] = 1; puts(\"in\"); p[-1] = 1;", OVER, HEAP),
    ("a loop over a block that goes one too far", "int *p = calloc(8, sizeof *p), i, sum = 0; for (i = 0; i <= 8; i++) { printf(\"%d\\n\", i); sum += p[i]; }", OVER, HEAP),
    ("a number of which a part is behind a block", "char *p = malloc(10); *(short *)(p + 8) = 1; puts(\"in\"); *(int *)(p + 8) = 1;", OVER, HEAP),
    ("eight bytes of which four are behind a block", "char *p = malloc(12); *(long long *)p = 1; puts(\"in\"); *(long long *)(p + 8) = 1;", OVER, HEAP),
    ("an element behind an array of a function", "printf(\"%d\\n\", local(3)); printf(\"%d\\n\", local(4));", OVER, STACK),
    ("an element before an array of a function", "printf(\"%d\\n\", local(0)); printf(\"%d\\n\", local(-1));", OVER, "stack-buffer-"),
    ("an element behind an array whose length is known at run time", "printf(\"%d\\n\", open_array(5, 4)); printf(\"%d\\n\", open_array(5, 5));", OVER, "dynamic-stack-buffer-overflow"),
    ("a byte behind memory of alloca", "printf(\"%d\\n\", on_the_stack(5, 4)); printf(\"%d\\n\", on_the_stack(5, 5));", OVER, "dynamic-stack-buffer-overflow"),
    ("an element behind a global array", "int *p = table; printf(\"%d\\n\", p[4]); printf(\"%d\\n\", p[5]);", OVER, GLOBAL),
    ("an element behind a global array of zeros", "int *p = zeros; p[99] = 1; puts(\"in\"); p[100] = 1;", OVER, GLOBAL),
    ("a byte behind a string", "const char *p = words[0]; printf(\"%d\\n\", p[3]); printf(\"%d\\n\", p[4]);", OVER, GLOBAL),
    ("a string that has no room for its zero", "char text[6]; strcpy(text, \"12345\"); puts(text); strcpy(text, \"123456\"); puts(text);", OVER, STACK),
    ("a string without its zero", "char text[6]; memcpy(text, \"123456\", 6); puts(\"in\"); printf(\"%d\\n\", (int)strlen(text));", OVER, STACK),
    ("a string behind another one", "char *p = malloc(6); strcpy(p, \"abc\"); strcat(p, \"de\"); puts(p); strcat(p, \"f\"); puts(p);", OVER, HEAP),
    ("what sprintf writes behind an array", "char text[4]; sprintf(text, \"%d\", 999); puts(text); sprintf(text, \"%d\", 1000); puts(text);", OVER, STACK),
    ("what memcpy reads behind a block", "char *p = malloc(10), to[20]; memset(p, 1, 10); memcpy(to, p, 10); puts(\"in\"); memcpy(to, p, 11);", OVER, HEAP),
    ("what memset writes behind a block", "int *p = malloc(10 * sizeof *p); memset(p, 1, 40); puts(\"in\"); memset(p, 1, 44);", OVER, HEAP),
    ("what fgets writes behind an array", "char text[4]; fgets(text, 4, stdin); puts(text); fgets(text, 40, stdin); puts(text);", OVER, STACK),
    ("a block that was freed", "char *p = malloc(10); strcpy(p, \"abc\"); puts(p); free(p); printf(\"%d\\n\", p[1]);", GONE, "heap-use-after-free"),
    ("a block that was freed and another one behind it", "char *p = malloc(10), *q; free(p); q = malloc(10); q[0] = 1; puts(\"in\"); p[0] = 1;", GONE, "heap-use-after-free"),
    ("a list that is freed by its own links", "struct node *p = chain(3); puts(\"in\"); for (; p; p = p->next) free(p);", GONE, "heap-use-after-free"),
    ("a block that was made longer", "char *p = malloc(10), *q; p[0] = 1; q = realloc(p, 20); q[19] = 1; puts(\"in\"); p[0] = 1;", GONE, "heap-use-after-free"),
    ("a byte behind a block that was made longer", "char *p = malloc(10); p = realloc(p, 20); p[19] = 1; puts(\"in\"); p[20] = 1;", OVER, HEAP),
    ("a local of a function that has returned", "int *p = gone(); puts(\"in\"); printf(\"%d\\n\", *p);", GONE, "stack-use-after-return"),
    ("a block that is freed twice", "char *p = malloc(10); free(p); puts(\"in\"); free(p);", FREED, "attempting double-free"),
    ("the middle of a block that is freed", "char *p = malloc(10); puts(\"in\"); free(p + 4);", FREED, "attempting free on address"),
    ("a local that is freed", "char text[8]; text[0] = 1; puts(\"in\"); free(text);", FREED, "attempting free on address"),
    ("memory of nothing", "char *p = malloc(0); puts(\"in\"); p[1] = 1;", OVER, HEAP),
    # What stays in one object isn't looked at, by either.
    ("a member behind another one", "struct pair *p = pairs; p->name[8] = 1; printf(\"%d\\n\", p->n);", 0, ""),
    ("all bytes of all objects", "char *p = malloc(13); int i; for (i = 0; i < 13; i++) p[i] = i; for (i = 0; i < 20; i++) ((char *)table)[i] = i; for (i = 0; i < 400; i++) ((char *)zeros)[i] = i;"
     " printf(\"%d %d %s %d\\n\", p[12], zeros[99], words[1], (int)strlen(words[0])); free(p);", 0, ""),
    # 6 MB in all, of which two blocks of 4,000 bytes are there at a time; then one of a megabyte.
    ("blocks that come and go", "char *p = NULL, *q; int i; for (i = 0; i < 1500; i++) { q = malloc(4000); if (!q) { puts(\"none\"); return 1; } q[0] = i; q[3999] = p ? p[0] : 0; free(p); p = q; }"
     " printf(\"%d %d\\n\", p[0], p[3999]); free(p); p = malloc(1000000); puts(p ? \"in\" : \"none\"); if (p) p[999999] = 1;", 0, ""),
]


def program():
    """One program of all rows; the first line of its input says which it runs."""
    cases = "".join(f"    if (row == {number}) {{ {text} }}\n" for number, (_, text, _, _) in enumerate(ROWS))
    return HEAD + BYTES + "int main(void)\n{\n    int row = 0, c;\n    setvbuf(stdout, NULL, _IONBF, 0);\n    while ((c = getchar()) != '\\n') row = 10 * row + c - '0';\n    bytes_of_an_int();\n" + cases + "    return 0;\n}\n"


class Bounds(Case):
    def setUp(self):
        super().setUp()
        self.name = self.write("rows.c", program())

    def sanitized(self, options, data):
        """What AddressSanitizer says of a run, and what was written before."""
        done = subprocess.run([self.built], input=data, stdout=subprocess.PIPE, stderr=subprocess.PIPE, check=False, env={**os.environ, "ASAN_OPTIONS": options})
        found = re.search(rb"AddressSanitizer: (attempting [\w -]+|[\w-]+)", done.stderr)
        return found[1].decode() if found else "", done.stdout

    def test_an_access_traps_where_a_sanitizer_stops(self):
        """By hand, and beside gcc's build for 32 bits with -fsanitize=address, or for 64 where there is none."""
        self.built = builds.compiled([self.name], [], self.room, "built", ["-O0", "-fsanitize=address", "-fno-builtin"])
        ported = cbi_port.port([self.name])
        self.assertTrue(any("memory is kept as bytes" in it for it in ported.liberties), ported.liberties)
        text = check.transformed(looking.CBI, ported, self.room)[0]
        self.assertIsNotNone(text, check.transformed(looking.CBI, ported, self.room))
        for number, (what, _, trap, error) in enumerate(ROWS):
            with self.subTest(what):
                data = f"{number}\nabcdefgh\n".encode()
                got = check.run_ported(looking.CBI, text, data, self.room, TURNS)
                self.assertEqual(got.stopped, f"trap {trap}" if trap else "")
                if self.built is not None and shutil.which("gcc"):
                    said, written = self.sanitized("detect_leaks=0:detect_stack_use_after_return=1", data)
                    self.assertTrue(said.startswith(error) and bool(said) == bool(error), said)
                    self.assertEqual(got.output, written)

    def test_without_bounds(self):
        """`flat` keeps bytes without bounds: what is read behind a block is there, and the text is smaller."""
        flat, bounded = (cbi_port.port([self.name], memory=memory) for memory in ("flat", "bytes"))
        self.assertLess(len(flat.text), len(bounded.text))
        got = check.run_ported(looking.CBI, check.transformed(looking.CBI, flat, self.room)[0], b"0\n", self.room, TURNS)
        self.assertEqual((got.output, got.status), (b"in\n", 0))


if __name__ == "__main__":
    looking.heed_interrupts()
    looking.CBI = os.path.abspath(sys.argv.pop(1))
    unittest.main(verbosity=1)
