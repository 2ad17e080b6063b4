"""What the dialect of `cbi` leaves out of C, and what to write in its place. Not proved.

Each entry has a sample that is refused and one that isn't, so that `checks/tools` can hold the table to the
executable; docs/PORTING.md has the table as `cbi-explain --table` writes it.
"""
import re
from typing import List, Match, NamedTuple, Optional, Tuple


class Entry(NamedTuple):
    """`causes` are the refusals that it may stand behind, `pattern` what the refused line then has.

    A sample is what stands before `main` and what stands in it. `anywhere` is what lines have that are seen without a
    refusal, where that is another pattern; an empty one is looked for nowhere.
    """
    name: str
    causes: Tuple[str, ...]
    pattern: str
    advice: str
    refused: Tuple[str, Optional[str]]
    written: Tuple[str, Optional[str]]
    anywhere: Optional[str] = None


SYNTAX, TOKEN, BYTE = "Syntax", "BadToken", "BadByte"


def kinds(*numbers: int) -> Tuple[str, ...]:
    return tuple(f"kind {number}" for number in numbers)


ENTRIES = [
    Entry("`switch`", (SYNTAX,), r"\b(switch|case|default)\b",
          "a chain of `if` and `else if` on the value, kept in a variable; where a case falls into the next one, both have its statements",
          ("", "int c = 1; switch (c) { case 1: c = 2; break; default: c = 3; }"),
          ("", "int c = 1; if (c == 1) c = 2; else c = 3;")),
    Entry("`typedef`", (SYNTAX,), r"\btypedef\b",
          "the type itself at each place; a struct is named `struct NAME`",
          ("typedef int number;", ""),
          ("int number;", "")),
    Entry("`unsigned long`, `long`, `short`, `signed`, `unsigned char`, `size_t`", (SYNTAX, *kinds(1)),
          r"\b(long|short|signed|size_t|u?int(8|16|32|64)_t|unsigned\s+char)\b",
          "`int` or `unsigned`, of 32 bits each; a byte from 0 to 255 is an `int`, since a `char` goes from -128 to 127; what needs 64 bits is kept in two halves",
          ("", "unsigned long n = 1;"),
          ("", "unsigned n = 1;")),
    Entry("`float`, `double`, `1.5`", (SYNTAX, TOKEN), r"\b(float|double)\b|\d\.\d*|\.\d",
          "whole numbers of a smaller unit: cents, thousandths",
          ("", "double price = 1.5;"),
          ("", "int price_in_cents = 150;")),
    Entry("`bool`, `_Bool`, `true`", (SYNTAX, *kinds(1)), r"\b(bool|_Bool|true|false)\b",
          "`int` with 1 and 0",
          ("", "_Bool found = 1;"),
          ("", "int found = 1;")),
    Entry("`enum`", (SYNTAX,), r"\benum\b",
          "a `#define` for each name, and `int` for the type",
          ("enum { RED, GREEN };", ""),
          ("#define RED 0\n#define GREEN 1", "")),
    Entry("`union`", (SYNTAX,), r"\bunion\b",
          "a `struct` with a member for each kind of value",
          ("union value { int number; char *text; };", ""),
          ("struct value { int number; char *text; };", "")),
    Entry("`const`, `static`, `extern`, `register`, `volatile`, `inline`", (SYNTAX,), r"\b(const|static|extern|register|volatile|inline|restrict|auto)\b",
          "nothing: leave the word out; a `static` variable of a function becomes a global of another name",
          ("", "static int calls = 0;"),
          ("int calls = 0;", "")),
    Entry("`goto` and labels", (SYNTAX,), r"\bgoto\b|^\s*[A-Za-z_]\w*\s*:(?!:)",
          "a loop with `break` and `continue`, a flag that its condition asks, or a function that returns",
          ("", "goto end; end: ;"),
          ("", "int end = 0; while (!end) end = 1;"),
          r"\bgoto\b|^\s*(?!default\b|case\b)[A-Za-z_]\w*\s*:(?!:)\s*$"),
    Entry("pointers to functions", (SYNTAX,), r"\(\s*\*\s*\w*\s*\)\s*\(",
          "a number that says which function is meant, and an `if` for each where it is called",
          ("int (*chosen)(int);", ""),
          ("int first(int n) { return n; }\nint call(int chosen, int n) { if (chosen == 0) return first(n); return 0; }", "")),
    Entry("`...` of a function", (SYNTAX,), r"\.\.\.",
          "a parameter for each argument, or an array and its length",
          ("int sum(int count, ...) { return count; }", ""),
          ("int sum(int *numbers, int count) { return count ? numbers[0] : 0; }", "")),
    Entry("a function without a type, or with its parameters' types behind `)`", (SYNTAX,), r"^\s*[A-Za-z_]\w*\s*\([^;{]*\)?",
          "a type before the name, and one before each parameter: `int f(int a)`",
          ("f(a) int a; { return a; }", ""),
          ("int f(int a) { return a; }", ""),
          r""),
    Entry("a variable behind `}` of its struct, or a struct without a name", (SYNTAX,), r"\bstruct\b|^\s*\}\s*\*?\w+",
          "`struct NAME { .. };` first, and then `struct NAME variable;`",
          ("struct point { int x; } origin;", ""),
          ("struct point { int x; };\nstruct point origin;", ""),
          r"^\s*\}\s*\*?(?!else\b|while\b)[A-Za-z_]\w*\s*[;,\[=]|\bstruct\s*\{"),
    Entry("structs that are assigned, passed, returned or initialised", kinds(3, 5, 6, 7), r"",
          "each member by itself, or a pointer to the struct",
          ("struct point { int x; };\nint f(struct point p) { return p.x; }", ""),
          ("struct point { int x; };\nint f(struct point *p) { return p->x; }", ""),
          r""),
    Entry("braces within braces", (SYNTAX,), r"\{[^}]*\{|=\s*\{|^\s*\{.*\}\s*,?\s*$",
          "one flat array with the place counted out (`a[2 * i + j]`), or assignments in a loop",
          ("int a[2][2] = {{1, 2}, {3, 4}};", ""),
          ("int a[4] = {1, 2, 3, 4};", ""),
          r"=\s*\{[^}]*\{|^\s*\{[^;{}]*\}\s*,\s*$"),
    Entry("`int a[N + 1]` and lengths known at run time", (SYNTAX,), r"\[[^\]']*[^\]\s\w'][^\]']*\]|\[\s*[A-Za-z_]\w*\s*\]",
          "one constant or one name of a `#define`; where the length comes at run time, `malloc` of so many cells",
          ("#define N 3\nint a[N + 1];", ""),
          ("#define N1 4\nint a[N1];", ""),
          r"^\s*(int|char|unsigned|struct\s+\w+)\b[^=;(]*\[[^\]]*[-+*/][^\]]*\]"),
    Entry("globals that begin with more than constants", kinds(7), r"=",
          "an assignment at the beginning of `main`",
          ("int a = 2 * 3;", ""),
          ("int a;", "a = 2 * 3;"),
          r""),
    Entry("`scanf`", kinds(1), r"\bf?scanf\b",
          "a function of your own that reads by `getchar`: skip blanks, then take digits while they come (docs/PORTING.md has one)",
          ("", "int n; scanf(\"%d\", &n);"),
          ("int read_number(void) { int c = getchar(); int n = 0; while (c >= '0' && c <= '9') { n = 10 * n + (c - '0'); c = getchar(); } return n; }",
           "int n = read_number();")),
    Entry("`fgets`, `gets`, `getc`, `fopen`, `FILE`, `stdin`", kinds(1), r"\b(fgets|gets|getc|fgetc|getline|ungetc|fopen|fclose|fread|feof|FILE|stdin)\b",
          "`getchar`, the one input there is; a byte that is read too far is kept in a global",
          ("", "int c = getc(stdin);"),
          ("", "int c = getchar();")),
    Entry("`fprintf`, `putc`, `fputs`, `stderr`", kinds(1), r"\b(fprintf|putc|fputc|fputs|perror|fwrite|fflush|stderr|stdout)\b",
          "`printf`, `putchar` or `puts`, the one output there is; messages to `stderr` are left out",
          ("", "fprintf(stderr, \"no\");"),
          ("", "printf(\"no\");")),
    Entry("`sprintf` and `snprintf`", kinds(1), r"\bsn?printf\b",
          "a function of your own that stores the digits",
          ("char s[9];", "sprintf(s, \"%d\", 1);"),
          ("char s[9];", "s[0] = '1'; s[1] = 0;")),
    Entry("`strlen`, `strcmp`, `strcpy`, `memset` and their kin", kinds(1), r"\b(str(?!uct\b|to[dflu])|mem)[a-z]+\b",
          "a function of your own, under a name of your own: a loop to the closing zero",
          ("", "int n = strlen(\"ab\");"),
          ("int length(char *s) { int n = 0; while (s[n]) n++; return n; }", "int n = length(\"ab\");")),
    Entry("`isdigit`, `isspace`, `toupper` and their kin", kinds(1), r"\b(is(digit|alpha|alnum|space|upper|lower|punct|xdigit)|to(upper|lower))\b",
          "a comparison of characters",
          ("", "int d = isdigit('3');"),
          ("", "int d = '3' >= '0' && '3' <= '9';")),
    Entry("`atoi`, `strtol`, `abs`, `qsort`, `rand`, `time`", kinds(1), r"\b(ato[il]|strto[dflu]+l*|abs|qsort|bsearch|s?rand|time|clock|getenv)\b",
          "a function of your own; what comes by chance or from outside is read from the input",
          ("", "int n = abs(-1);"),
          ("int absolute(int n) { return n < 0 ? -n : n; }", "int n = absolute(-1);")),
    Entry("`calloc` and `realloc`", kinds(1), r"\b(calloc|realloc)\b",
          "`malloc`, and a loop that stores zeros or copies; sizes are counted in cells, so `sizeof(int)` is 1",
          ("", "int *p = calloc(4, sizeof(int));"),
          ("", "int i; int *p = malloc(4 * sizeof(int)); for (i = 0; i < 4; i++) p[i] = 0;")),
    Entry("`EXIT_SUCCESS`, `INT_MAX` and other names of headers", kinds(1), r"\b(EXIT_SUCCESS|EXIT_FAILURE|INT_MAX|INT_MIN|UINT_MAX|RAND_MAX|BUFSIZ|CHAR_BIT)\b",
          "a `#define` of the number, or the number itself",
          ("", "exit(EXIT_FAILURE);"),
          ("#define EXIT_FAILED 1", "exit(EXIT_FAILED);")),
    Entry("`%5d`, `%x`, `%ld`, `%f` and other conversions", kinds(5), r"%(?![ducs%])",
          "`%d`, `%u`, `%c`, `%s` and `%%` alone; blanks and zeros before a number are written by a loop of your own",
          ("", "printf(\"%5d\", 1);"),
          ("", "printf(\"    %d\", 1);"),
          r"\"(?:[^\"%]|%[ducs%])*%(?![ducs%])"),
    Entry("a `printf` whose value is used, or whose format is no string", kinds(5), r"\bprintf\b",
          "a statement of its own with its format as a string: `printf(\"%s\", text);`",
          ("", "char *text = \"ab\"; printf(text);"),
          ("", "char *text = \"ab\"; printf(\"%s\", text);"),
          r"[=(,+]\s*printf\b|\bprintf\s*\(\s*[A-Za-z_]"),
    Entry("`#define` of a negative number or in parentheses", (TOKEN,), r"^\s*#\s*define\s+\w+\s+[-(]",
          "the name of the positive number, with the `-` where it is used; or a global",
          ("#define LOWEST -5", "int n = LOWEST;"),
          ("#define LOWEST 5", "int n = -LOWEST;")),
    Entry("`#define` with parameters, of an expression or of nothing", (TOKEN,), r"^\s*#\s*define\b",
          "a function in place of parameters; for an expression its value",
          ("#define TWICE(n) ((n) + (n))", ""),
          ("int twice(int n) { return n + n; }", ""),
          r"^\s*#\s*define\s+\w+(\(|\s*$|\s+(?![-(\d\'+]))"),
    Entry("`#if`, `#ifdef`, `#undef`, `#pragma`", (TOKEN,), r"^\s*#\s*(if|ifdef|ifndef|elif|else|endif|undef|pragma|error|line)\b",
          "nothing: keep the branch that is meant, and leave the directives out",
          ("#ifdef DEBUG\n#endif", ""),
          ("", "")),
    Entry("`#include <ctype.h>`", (TOKEN,), r"^\s*#\s*include\s*<ctype\.h>",
          "nothing: leave the line out, and write comparisons of characters where its functions are called, or functions of your own under their names",
          ("#include <ctype.h>", ""),
          ("int isdigit(int c) { return c >= '0' && c <= '9'; }", "int d = isdigit('3');")),
    Entry("`#include` of other headers, or of your own", (TOKEN,), r"^\s*#\s*include\b",
          "the text itself, put in its place; of the library there are `<stdio.h>`, `<stdlib.h>` and `<assert.h>`",
          ("#include <string.h>", ""),
          ("#include <stdlib.h>", ""),
          r"^\s*#\s*include\s*(?!\s*<(stdio|stdlib|assert|ctype)\.h>)"),
    Entry("`main` with `argc` and `argv`", kinds(9), r"\bmain\s*\(\s*(int|char|[a-z]+\s*,)",
          "`int main(void)`: what stood in the arguments is read from the input first",
          ("int main(int argc, char **argv) { return argc; }", None),
          ("int main(void) { int count = getchar() - '0'; return count; }", None)),
    Entry("a byte order mark", (BYTE,), "^(\ufeff|\xef\xbb\xbf)",
          "nothing: save the text without one (`sed '1s/^\\xef\\xbb\\xbf//'`)",
          ("\ufeffint a;", ""),
          ("int a;", "")),
    Entry("`\\` at the end of a line", (BYTE,), r"\\\s*$",
          "one long line; long strings are several strings side by side",
          ("", "int a = 1 + \\\n2;"),
          ("", "int a = 1 +\n2;")),
    Entry("quotes, dashes and letters beyond ASCII", (BYTE,), r"[^\x00-\x7f]",
          "the signs of ASCII; in comments, strings and character constants any byte may stand",
          ("", "char *s = \u201cab\u201d;"),
          ("", "char *s = \"ab\";")),
    Entry("`10L`, `08`, `3000000000`, `'ab'`", (TOKEN,), r"\b\d+[lL]|\b0\d*[89]|\b\d{10,}|'[^'\\]{2,}'",
          "a number without `L`, decimal without a leading zero, with `u` from 2,147,483,648 on; one character between `'`",
          ("", "unsigned n = 3000000000;"),
          ("", "unsigned n = 3000000000u;")),
    Entry("casts from a pointer to another kind of pointer or to a number", kinds(3), r"\(\s*(struct\s+)?\w+\s*\**\s*\)",
          "`void *` between the two, or the right kind from the beginning; a cell gives back only what was stored in it",
          ("", "char *s = NULL; int *p = (int *)s;"),
          ("", "char *s = NULL; void *any = s; int *p = any;"),
          r"\(\s*(struct\s+\w+|int|char|unsigned)\s*\*+\s*\)"),
    Entry("a type that has no name here", (SYNTAX,), r"^\s*(?!(?:int|char|unsigned|void|struct|if|while|for|do|else|return|break|continue|sizeof)\b)[A-Za-z_]\w*[\s*]+[A-Za-z_]\w*\s*[(;=,\[]",
          "`int`, `char`, `unsigned`, `void`, a pointer or `struct NAME`: no type has that name, and typedef isn't taken",
          ("bigint f(int n) { return n; }", ""),
          ("int f(int n) { return n; }", ""), ""),
    Entry("functions that are declared and never defined", kinds(10), r"",
          "their definition: one file is the whole program",
          ("int f(int n);", "f(1);"),
          ("int f(int n) { return n; }", "f(1);"),
          r""),
]


FORMATS = kinds(5)
STRING = re.compile(r"\"(?:\\.|[^\"\\\n])*\"|/\*.*?\*/|//[^\n]*|'(?:\\.|[^'\\\n])+'", re.DOTALL)


# A function that the text defines: it may have the name of one of the library that isn't there.
DEFINED = re.compile(r"^[A-Za-z_][\w\s*]*?\b([A-Za-z_]\w*)\s*\([^;{}()]*\)\s*\{", re.MULTILINE)


def without(text: str, strings: bool) -> List[str]:
    """The lines of a text without its comments, and where it is said without what stands in its strings."""
    def kept(piece: Match[str]) -> str:
        if piece[0].startswith("/"):
            return " " + "\n" * piece[0].count("\n")
        if piece[0].startswith("'") and re.fullmatch(r"'(\\.[0-9a-fA-F]*|.)'", piece[0]):
            return "0"
        return '""' if piece[0].startswith('"') and not strings else piece[0]
    return STRING.sub(kept, text).split("\n")


def places(text: str) -> List[Tuple[Entry, List[int]]]:
    """Each entry that a text has something of, with the numbers of its lines."""
    bare, whole = without(text, False), without(text, True)
    own = set(DEFINED.findall("\n".join(bare)))
    found = []
    for entry in ENTRIES:
        pattern = entry.pattern if entry.anywhere is None else entry.anywhere
        lines = whole if entry.causes == FORMATS else text.split("\n") if entry.causes == (BYTE,) else bare
        numbers = [number for number, line in enumerate(lines, 1) if pattern and any(found[0] not in own for found in re.finditer(pattern, line))]
        if numbers:
            found.append((entry, numbers))
    return found


def table() -> str:
    """The table of docs/PORTING.md."""
    rows = ["| Left out | Write in its place |", "|---|---|"]
    return "\n".join(rows + [f"| {entry.name} | {entry.advice} |" for entry in ENTRIES]) + "\n"


def sample(parts: Tuple[str, Optional[str]]) -> str:
    """A whole text of a sample; one whose second part is None is whole already."""
    top, body = parts
    return top + "\n" if body is None else f"{top}\nint main(void)\n{{\n{body}\nreturn 0;\n}}\n" if top else f"int main(void)\n{{\n{body}\nreturn 0;\n}}\n"
