#include <stdlib.h>
int add(a, b) int a, b; { return a + b; }
int pick(p, c, n) char *p; char c; short n; { return p[n] == c; }
swap(x, y) int *x, *y; { int t = *x; *x = *y; *y = t; }
unsigned long shift(v, by) unsigned long v; unsigned by; { return v << by; }
int undeclared_user() { return later_defined(3) + later_defined(4); }
int later_defined(n) { return n * n; }
main()
{
    int a = 1, b = 2;
    swap(&a, &b);
    if (a != 2 || b != 1 || add(3, 4) != 7 || !pick("abc", 'c', 2) || shift(1ul, 4) != 16 || undeclared_user() != 25)
        abort();
    exit(0);
}
