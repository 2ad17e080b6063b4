#include <stddef.h>
#include <stdio.h>
enum a { A1, A2 };
enum b { B1, B2 };
typedef enum { C1, C2 } c_t;
struct s { int n; const char *name; char text[4]; const int fixed; int *p; };
union u { int n; };
typedef const char *words;
typedef const int fixed;
typedef const int row[3];
#define SHOW(x) _Generic((x), int: "int", unsigned: "unsigned", long: "long", long long: "long long", double: "double", char: "char", \
    char *: "char *", const char *: "const char *", volatile char *: "volatile char *", const volatile char *: "const volatile char *", \
    char **: "char **", const char **: "const char **", char *const *: "char *const *", const char *const *: "const char *const *", \
    int *: "int *", const int *: "const int *", volatile int *: "volatile int *", int (*)[3]: "int (*)[3]", const int (*)[3]: "const int (*)[3]", \
    void *: "void *", const void *: "const void *", struct s *: "struct s *", const struct s *: "const struct s *", struct s: "struct s", \
    int (*)(const char *): "function of const char *", int (*)(char *): "function of char *", default: "other")
#define WHICH(x) _Generic((x), enum a: "a", enum b: "b", c_t: "c", default: "none")
#define LIKE(x) _Generic((x), unsigned: "unsigned", int: "int", default: "other")
#define SAME(x, y) __builtin_types_compatible_p(x, y)
static int of_const(const char *s) { return s[0]; }
static int of_char(char *s) { return s[0]; }
static const char *named(const struct s *p) { return SHOW(p->text); }
static const struct s steady = { 1, "x", "abc", 2, NULL };
extern const int later[3];
static void params(const int a[], int *const p, const row *r, char *const argv[])
{
    printf("%s; %s; %s; %s; %s; %s\n", SHOW(a), SHOW(p), SHOW(&p), SHOW(*r), SHOW(argv), SHOW(argv[0]));
}
const int later[3] = { 7, 8, 9 };
int main(int argc, char **argv)
{
    char text[4] = "abc", *t = text;
    const char *ct = t;
    volatile char *vt = t;
    const volatile char *cvt = t;
    char *const *list = &t;
    const char *const *clist = &ct;
    words w = ct;
    const int n = 5, cells[3] = { 1, 2, 3 };
    fixed f = 6;
    const row rows[2] = { { 1 }, { 2 } };
    volatile int v = 1;
    int m = 2, a[3] = { 1, 2, 3 };
    struct s s = { 3, "y", "def", 4, &m };
    const struct s *cs = &s;
    enum a ea = A2;
    enum b eb = B1;
    c_t ec = C2;
    const enum a ca = A1;
    static const char *const table[] = { "x", "y" };
    printf("%s; %s; %s; %s; %s; %s; %s\n", SHOW(t), SHOW(ct), SHOW(vt), SHOW(cvt), SHOW(list), SHOW(clist), SHOW(w));
    printf("%s; %s; %s; %s; %s; %s; %s\n", SHOW(&t), SHOW(&ct), SHOW(*list), SHOW(*clist), SHOW("lit"), SHOW(text), SHOW(&text[1]));
    printf("%s; %s; %s; %s; %s; %s; %s; %s\n", SHOW(n), SHOW(&n), SHOW(cells), SHOW(&cells), SHOW(&f), SHOW(rows[0]), SHOW(&v), SHOW(rows));
    printf("%s; %s; %s; %s; %s; %s\n", SHOW(&m), SHOW(a), SHOW(&a), SHOW(&cells[1]), SHOW(*cells), SHOW(later));
    printf("%s; %s; %s; %s; %s; %s; %s\n", SHOW(&s), SHOW(cs), SHOW(s), SHOW(*cs), SHOW(&steady), SHOW(cs->name), SHOW(steady.text));
    printf("%s; %s; %s; %s; %s; %s; %s\n", named(cs), SHOW(s.text), SHOW(&cs->n), SHOW(&s.n), SHOW(&s.fixed), SHOW(cs->p), SHOW(&steady.name));
    printf("%s; %s; %s; %s; %s\n", SHOW(1 ? t : ct), SHOW(0 ? &m : &n), SHOW(1 ? t : NULL), SHOW(1 ? (void *)t : ct), SHOW((t, ct)));
    printf("%s; %s; %s; %s; %s\n", SHOW((const char *)t), SHOW((char *)ct), SHOW(ct + 1), SHOW(ct++), SHOW(t = text));
    printf("%s; %s; %s; %s; %s\n", SHOW(of_const), SHOW(&of_char), SHOW(table[0]), SHOW(table), SHOW(argv));
    printf("%s %s %s %s %s %s\n", WHICH(ea), WHICH(eb), WHICH(ec), WHICH(ca), WHICH(A1), WHICH((enum b)1));
    printf("%s %s %s %s\n", LIKE(ea), LIKE(A1), LIKE(ea + 0), LIKE(-eb));
    printf("%d%d%d%d %d%d%d%d %d%d%d\n", SAME(char *, const char *), SAME(char *, char *const), SAME(int, const int), SAME(enum a, enum b), SAME(enum a, enum a), SAME(c_t, enum b),
           SAME(int[], int[5]), SAME(int[3], int[5]), SAME(const int *, int *), SAME(words, const char *), SAME(struct s, union u));
    printf("%d%d%d\n", SAME(__typeof__(cs->text[0]), char), SAME(__typeof__(&cs->text[0]), const char *), SAME(__typeof__(ct), char *));
    params(cells, &m, rows, argv);
    return argc - 1;
}
/* writes
char *; const char *; volatile char *; const volatile char *; char *const *; const char *const *; const char *
char **; const char **; char *; const char *; char *; char *; char *
int; const int *; const int *; const int (*)[3]; const int *; const int *; volatile int *; const int (*)[3]
int *; int *; int (*)[3]; const int *; int; const int *
struct s *; const struct s *; struct s; struct s; const struct s *; const char *; const char *
const char *; char *; const int *; int *; const int *; int *; const char *const *
const char *; const int *; char *; const void *; const char *
const char *; char *; const char *; const char *; char *
function of const char *; function of char *; const char *; const char *const *; char **
a b c a none b
unsigned int unsigned unsigned
0110 1010 010
110
const int *; int *; other; const int *; char *const *; char *
status 0 */
