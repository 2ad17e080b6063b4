#include <stdio.h>
#include <stdlib.h>
int sum(int n, int m, int a[n][m])
{
    int s = 0;
    for (int i = 0; i < n; i++)
        for (int j = 0; j < m; j++)
            s += a[i][j];
    return s + (int)sizeof a[0];
}
int trace(int n, int (*a)[n])
{
    int t = 0;
    for (int i = 0; i < n; i++)
        t += a[i][i];
    return t;
}
int once(int n, int a[n++]) { return n + (a != 0); }
int k = 3;
int main(void)
{
    int n = 3, m = 4;
    int a[n][m];
    int b[2][n][m + 1];
    for (int i = 0; i < n; i++)
        for (int j = 0; j < m; j++)
            a[i][j] = i * 10 + j;
    printf("%d %d %d %d\n", sum(n, m, a), (int)sizeof a, (int)sizeof a[1], (int)sizeof(int[n * 2]));
    b[1][2][3] = 5;
    b[0][0][0] = 1;
    printf("%d %d %d\n", b[1][2][3], b[0][0][0], (int)(sizeof b / sizeof b[0]));
    int (*p)[m] = a;
    p++;
    printf("%d %d %d\n", (*p)[2], p[1][3], (int)(p - a));
    typedef short row[n];
    n = 10;
    row r[2];
    r[1][2] = 7;
    printf("%d %d\n", (int)sizeof r, r[1][2]);
    int (*q)[m] = malloc(2 * sizeof *q);
    q[1][3] = 9;
    q[0][0] = 2;
    printf("%d %d %d\n", q[1][3], q[0][0], (int)sizeof *q);
    free(q);
    int e[2][2] = { { 1, 2 }, { 3, 6 } };
    printf("%d %d\n", trace(2, e), once(4, e[0]));
    for (int i = 1; i < 4; i++) {
        char s[i + 1];
        s[i] = i;
        s[0] = 1;
        printf("%d %d ", (int)sizeof s, s[i]);
    }
    printf("\n");
    struct s { int x; char c; } t[k];
    t[2].x = 4;
    t[2].c = 'x';
    printf("%d %c %d\n", t[2].x, t[2].c, (int)sizeof t);
    return 0;
}
/* writes
154 48 16 24
5 1 2
12 23 1
12 7
9 2 16
7 6
2 1 3 2 4 3 
4 x 24
status 0 */
