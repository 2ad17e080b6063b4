#include <stdio.h>
typedef int (*op)(int, int);
typedef void visit(int *);
static int add(int a, int b) { return a + b; }
static int sub(int a, int b) { return a - b; }
static int mul(int a, int b) { return a * b; }
static void inc(int *p) { ++*p; }
static void dbl(int *p) { *p *= 2; }
struct command { const char *name; op f; } commands[] = { { "add", add }, { "sub", &sub }, { "mul", mul }, { NULL, NULL } };
static op choose(char c) { switch (c) { case '+': return add; case '-': return sub; } return NULL; }
static void each(int *a, int n, visit *v) { int i; for (i = 0; i < n; i++) v(&a[i]); }
int (*table[2])(int, int) = { mul, add };
int (*get(int i))(int, int) { return table[i]; }
int main(void)
{
    struct command *c;
    int a[3] = { 1, 2, 3 };
    op f = choose('-');
    void (*v)(int *) = (f == NULL) ? dbl : inc;
    for (c = commands; c->f; c++) printf("%s %d\n", c->name, c->f(6, 3));
    printf("%d %d %d %d\n", f(9, 4), (*f)(9, 5), get(0)(3, 3), (***choose('+'))(1, 1));
    each(a, 3, v); each(a, 3, dbl);
    printf("%d %d %d %d %d\n", a[0], a[1], a[2], f == sub, choose('x') == NULL);
    return !f;
}
/* writes
add 9
sub 3
mul 18
5 4 9 2
4 6 8 1 1
status 0 */
