#include <stdio.h>
#include <stdalign.h>
#define kind(x) _Generic((x), int: "int", unsigned: "unsigned", char *: "text", long long: "long long", default: "other")
int twice(int a) { return 2 * a; }
long long twice_long(long long a) { return 2 * a; }
#define twice(x) _Generic((x), long long: twice_long, default: twice)(x)
struct s { char a; _Alignas(8) char b; char c; };
_Alignas(64) int g;
_Atomic int counter; _Atomic(unsigned) other;
_Static_assert(sizeof(int) == 4, "int");
_Noreturn void stop(void);
int main(void)
{
    __auto_type x = 5LL; __auto_type p = &x; char t[3] = "ab"; const char *q = t;
    *p += 2; counter++; other += 3;
    printf("%s %s %s %s %s %s\n", kind(1), kind(1u), kind(t), kind(x), kind(&x), kind('a'));
    printf("%d %lld %d %d\n", twice(4), twice(x), (int)sizeof(struct s), (int)_Alignof(g));
    printf("%d %u %d\n", counter, other, (int)_Alignof(struct s));
    { int a = 1, b = 2; __auto_type c = a + b; int d = 1; printf("%d %d\n", c, d); }
    struct { int i; union { int u; char c; }; } n = { 1, { 2 } }; printf("%d\n", n.u + n.i);
    return 0;
}
/* writes
int unsigned text long long other int
8 14 16 64
1 3 8
3 1
3
status 0 */
