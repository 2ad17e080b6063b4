#include <stdlib.h>
#include <string.h>
static int sum(int n) { int a[n], i, s = 0; for (i = 0; i < n; i++) a[i] = i; for (i = 0; i < n; i++) s += a[i]; return s + sizeof a / sizeof a[0]; }
static int deep(int n) { char b[n + 1]; memset(b, 'x', n); b[n] = 0; return n ? deep(n - 1) + strlen(b) : 0; }
static int rows(int n, int m) { int (*a)[4] = malloc(n * sizeof *a); int i, j, s = 0; for (i = 0; i < n; i++) for (j = 0; j < 4; j++) a[i][j] = i * m + j; for (i = 0; i < n; i++) s += a[i][3]; free(a); return s; }
static int param(int n, int a[n]) { int s = 0; while (n) s += a[--n]; return s; }
int main(void)
{
    int i, a[] = { 1, 2, 3 };
    for (i = 1; i < 5; i++) if (sum(i) != i * (i - 1) / 2 + i) abort();
    for (i = 0; i < 20; i++) { int b[i + 1]; b[i] = i; if (b[i] != i) abort(); }
    if (deep(6) != 21 || rows(3, 10) != 39 || param(3, a) != 6) abort();
    return 0;
}
