#include <stdarg.h>
#include <stdio.h>
double g = 1.5;
float h = 2.25f;
static double arr[3] = { 1, 2.5, -3e10 };
float row[] = { 1, .5f, 0x1.8p1f };
struct p { int i; double d; float f; char c; } s = { 1, 2.5, 3.5f, 'x' };
double half(double x) { return x / 2; }
float addf(float a, float b) { return a + b; }
float old(a, b) float a; int b; { return a * b; }
double (*fp)(double) = half;
double sum(int n, ...) { va_list more; double s = 0; va_start(more, n); while (n--) s += va_arg(more, double); va_end(more); return s; }
struct p twice(struct p q) { q.d *= 2; q.f -= 1; return q; }
int main(void)
{
    double a = 3, b, *q = &a;
    int i = 7;
    unsigned u = 4000000000u;
    long long l = -5000000000LL;
    unsigned long long w = 18446744073709551615ULL;
    float f = 0.1f;
    struct p t = twice(s);
    short n = 3;
    unsigned char c = 200;
    printf("%g %g %g\n", half(g), a * 2 + i / 2.0, *q);
    a += 1.5;
    a++;
    --*q;
    printf("%g %d %d\n", a, !a, a && 0.5 ? 1 : 2);
    printf("%d %d %u %lld %llu\n", (int)-2.9, (char)65.5, (unsigned)(u + 0.5), (long long)(l * 1.0), (unsigned long long)1e19);
    printf("%.17g %.17g %.9g %.9g\n", (double)w, (double)l, (float)w, (float)16777217);
    printf("%.9g %.9g %d %d\n", f * 3, addf(f, 0.2f), f + 0.2f == 0.3f, 0.1 + 0.2 == 0.3);
    printf("%g %g %c %g %g\n", t.d, t.f, t.c, s.d, row[2]);
    printf("%g %d %d %g\n", fp(arr[2]), arr[1] > 2.5, arr[1] >= 2.5, old(1.5, 4));
    n += 2.7; c *= 1.5; i *= 0.5; f = n / 2; l = f;
    printf("%d %d %d %g %lld\n", n, c, i, f, l);
    for (b = 0; b < 1; b += 0.25) i++;
    printf("%d %g %g\n", i, i > 3 ? b : i, sum(3, 1.5, f, 2.0));
    printf("%d %d %d\n", 0.0 == -0.0, 1 / -0.0 < 0, 0.0 / 0.0 == 0.0 / 0.0);
    printf("%d %d %d\n", (int)sizeof a, (int)sizeof f, (int)sizeof(struct p));
    static double limits[] = { 1.0 / 3, 2 * 3.5, -1e308 * 10 };
    printf("%.17g %g %g\n", limits[0], limits[1], limits[2]);
    return (int)(h * 4);
}
/* writes
0.75 9.5 3
4.5 0 1
-2 65 4000000000 -5000000000 10000000000000000000
1.8446744073709552e+19 -5000000000 1.84467441e+19 16777216
0.300000012 0.300000012 1 0
5 2.5 x 2.5 3
-1.5e+10 0 1 6
5 44 3 2 2
7 1 5.5
1 1 0
8 4 20
0.33333333333333331 7 -inf
status 9 */
