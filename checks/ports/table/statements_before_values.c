#include <stdio.h>
int g;
struct p { int x, y; };
int f(int c)
{
    int x = 1;
    if (c) x = ({ int t = 5; g++; if (t > 3) g += 10; t; });
    while (c > 0) c = ({ int k = c - 1; for (; g > 100; g--) ; k; });
    if (x > 4) return ({ int z = x; do z++; while (z < 9); z; });
    else x = ({ int q = x; if (q) q = 7; q; });
    return x;
}
int h(int a, int b) { return a * 10 + b; }
int k(int c)
{
    int a[3] = { 1, 2, 3 }, r;
    r = h(({ int i = 0; while (a[i] < c && i < 2) i++; i; }), ({ int d; if (c > 1) d = 5; else d = 7; d; }));
    if (({ int s = 0; for (int i = 0; i < 3; i++) s += a[i]; s; }) == 6) r += 100;
    a[({ int z = 0; if (c) z = 1; z; })] += ({ int z = 9; if (z > c) z++; z; });
    switch (({ int w; if (a[1] > 11) w = 1; else w = 2; w; })) { case 1: r += 1000; break; case 2: r += 2000; break; }
    struct p q = ({ struct p t = { 1, 2 }; if (c) t.x = c; t; });
    return r + q.x + q.y;
}
int main(void)
{
    int a = f(0), b = g, c = f(3), d = g;
    printf("%d %d %d %d\n", a, b, c, d);
    printf("%d %d\n", k(1), k(3));
    return 0;
}
/* writes
7 0 9 11
1110 1130
status 0 */
