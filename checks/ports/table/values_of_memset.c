#include <stdio.h>
#include <stdlib.h>
#include <string.h>
struct point { int x, y; };
static unsigned one = 7;
static int steps;
static struct point *next_of(struct point *p) { steps++; return p + 1; }
static int *cleared(int *a, int n) { return memset(a, 0, n * sizeof *a); }
int main(void)
{
    int a[4] = { 1, 2, 3, 4 }, *p;
    struct point points[3] = { { 1, 2 }, { 3, 4 }, { 5, 6 } }, *q, *got;
    char text[4] = "abc";
    long long wide[2] = { 5, 6 }, *w;
    p = memset(a + 1, 0, 2 * sizeof *a);
    printf("%d %d %d %d %d\n", p == a + 1, a[0], a[1], a[2], a[3]);
    printf("%d ", &one == memset(&one, 0, sizeof one));
    printf("%u\n", one);
    q = points;
    got = memset(next_of(q), 0, sizeof *q);
    printf("%d %d %d %d %d\n", steps, got == points + 1, points[1].x, points[1].y, points[2].x);
    w = memset(wide, 0, sizeof wide);
    printf("%d %d\n", (int)w[0], (int)wide[1]);
    printf("%d %s\n", cleared(a, 4)[3], (char *)memset(text, '-', 2));
    return 0;
}
/* writes
1 1 0 0 4
1 0
1 1 0 0 5
0 0
0 --c
status 0 */
