#include <stdio.h>
struct wide { unsigned long long a : 40; long long b : 36; unsigned c : 5; unsigned long long d : 64; };
struct wide g = { 0xffffffffffULL, -2, 9, 7 };
struct wide given(struct wide w)
{
    w.a++;
    w.b -= 5;
    return w;
}
int main(void)
{
    struct wide w = given(g);
    printf("%llu %lld %u %llu\n", (unsigned long long)w.a, (long long)w.b, w.c, w.d);
    w.a = 0x1234567890aULL;
    w.b = 0x7ffffffffLL;
    printf("%llx %llx\n", (unsigned long long)w.a, (long long)w.b);
    w.a <<= 4;
    printf("%llx %d\n", (unsigned long long)w.a, (int)(w.a > 0x3000000000ULL));
    w.b = -1;
    w.a = w.b;
    printf("%llx %d\n", (unsigned long long)w.a, w.b < 0);
    w.a = 3;
    printf("%llx %llx\n", (unsigned long long)(w.a - 4), w.a - 4ULL);
    printf("%d\n", (int)sizeof w);
    return 0;
}
/* writes
0 -7 9 7
234567890a 7ffffffff
34567890a0 1
ffffffffff 1
ffffffffff ffffffffffffffff
20
status 0 */
