#include <stdlib.h>
#include <string.h>
struct p { int x, y; };
struct s { int a[3]; struct p p; const char *t; };
int m[2][3] = { { 1, 2, 3 }, { 4, 5 } };
int f[2][2] = { 1, 2, 3 };
struct s g[] = { { { 1, 2 }, { 3, 4 }, "one" }, { { 5 }, .t = "two" }, [3] = { .p.y = 9, .a[1] = 8 } };
char names[][4] = { "ab", "cde" };
struct p chain[2] = { 1, 2, 3, 4 };
int sparse[] = { [5] = 1, 2, [1] = 3 };
int main(void)
{
    int i = 3;
    int l[4] = { [2] = i, i + 1 };
    struct s k = { .p = { .y = i }, .a = { 1, [2] = 5 } };
    static const int n[] = { 1, 2, 3, };
    int w[2][2] = { { i, i }, { i + 1 } };
    if (m[0][2] != 3 || m[1][2] != 0 || f[1][0] != 3 || f[1][1] != 0) abort();
    if (sizeof(g) / sizeof(g[0]) != 4 || strcmp(g[1].t, "two") || g[3].p.y != 9 || g[3].a[1] != 8 || g[2].t || g[0].p.x != 3) abort();
    if (strcmp(names[1], "cde") || names[0][2] || chain[1].x != 3 || sizeof(sparse) != 28 || sparse[6] != 2 || sparse[1] != 3) abort();
    if (l[0] || l[2] != 3 || l[3] != 4 || k.p.y != 3 || k.p.x || k.a[0] != 1 || k.a[1] || k.a[2] != 5 || k.t) abort();
    if (n[2] != 3 || w[0][1] != 3 || w[1][0] != 4 || w[1][1]) abort();
    return 0;
}
