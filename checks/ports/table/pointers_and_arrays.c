#include <stdlib.h>
int m[3][4];
int sum(int a[][4], int n) { int i, j, s = 0; for (i = 0; i < n; i++) for (j = 0; j < 4; j++) s += a[i][j]; return s; }
int flat(const int *p, int n) { int s = 0; while (n-- > 0) s += *p++; return s; }
char *text[] = { "zero", "one", "two" };
int cube[2][2][2] = { { { 1, 2 }, { 3, 4 } }, { { 5, 6 }, { 7, 8 } } };
int main(void)
{
    int i, j, *p, **pp, (*r)[4], a[5] = { 1, 2, 3, 4, 5 };
    const char *s, **q = (const char **)text;
    for (i = 0; i < 3; i++) for (j = 0; j < 4; j++) m[i][j] = i * 4 + j;
    if (sum(m, 3) != 66 || flat(m[1], 4) != 22 || flat(&m[0][0], 12) != 66 || *(*(m + 2) + 1) != 9 || m[1] - m[0] != 4) abort();
    r = m + 1; if ((*r)[2] != 6 || r[1][3] != 11 || *r[1] != 8 || (r + 1) - m != 2) abort();
    r++; if (**r != 8) abort();
    p = a; pp = &p; (*pp)++; **pp = 20; if (a[1] != 20 || *p++ != 20 || *--p != 20 || p[-1] != 1 || 1[p] != 3 || &a[4] - p != 3) abort();
    p += 2; p -= 1; if (*p != 3 || p < a || !(p > a) || p == a) abort();
    for (s = q[1]; *s; s++) ; if (s - text[1] != 3 || q[2][1] != 'w' || "abc"[1] != 'b' || *("xyz" + 2) != 'z') abort();
    if (cube[1][0][1] != 6 || (*(cube + 1))[1][0] != 7 || *cube[1][1] != 7) abort();
    { int *end = a + 5, *k; int t = 0; for (k = a; k != end; ++k) t += *k; if (t != 33) abort(); }
    { int x = 1, *px = &x, *const cp = px; *cp = 7; if (x != 7) abort(); }
    { int (*pa)[5] = &a; if ((*pa)[2] != 3 || sizeof *pa != 20) abort(); }
    return 0;
}
