#include <stdarg.h>
#include <stdio.h>
#include <stdlib.h>
struct p { int x; char c; };
static int sum(int n, ...) { va_list ap; int s = 0; va_start(ap, n); while (n-- > 0) s += va_arg(ap, int); va_end(ap); return s; }
static long long mixed(const char *kinds, ...)
{
    va_list ap, other;
    long long r = 0;
    va_start(ap, kinds);
    va_copy(other, ap);
    for (; *kinds; kinds++)
        switch (*kinds) {
        case 'i': r += va_arg(ap, int); break;
        case 'u': r += va_arg(ap, unsigned); break;
        case 'l': r += va_arg(ap, long long); break;
        case 's': { const char *s = va_arg(ap, const char *); while (*s) r += *s++ - '0'; break; }
        case 'p': { struct p p = va_arg(ap, struct p); r += p.x * p.c; break; }
        case 'q': r += *va_arg(ap, int *); break;
        }
    va_end(ap);
    if (va_arg(other, int) != 1) abort();
    va_end(other);
    return r;
}
static void walk(va_list ap, int n) { while (n--) printf("%d ", va_arg(ap, int)); }
static void outer(int n, ...) { va_list ap; va_start(ap, n); walk(ap, n); va_end(ap); printf("\n"); }
static void say(const char *f, ...) { va_list ap; va_start(ap, f); vprintf(f, ap); va_end(ap); }
int main(void)
{
    int k = 1000;
    struct p p = { 20, 'a' - 'a' + 5 };
    char c = -1; unsigned char u = 200; short s = -300;
    printf("%d %d %d\n", sum(0), sum(3, 1, 2, 3), sum(3, c, u, s));
    printf("%lld\n", mixed("ilsuqp", 1, 1LL << 40, "123", 4000000000u, &k, p));
    outer(3, 7, 8, 9);
    say("%s-%d-%c\n", "x", 5, 'y');
    return 0;
}
/* writes
0 6 -101
1103511628883
7 8 9 
x-5-y
status 0 */
