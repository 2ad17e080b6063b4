#include <stdio.h>
int sum(int n, int (*p)[n]) { int s = 0, i; for (i = 0; i < n; i++) s += (*p)[i]; return s; }
int main(void)
{
    int n = 4, i;
    int x[n], y[2][n];
    int (*p)[n] = &x, (*q)[2][n] = &y;
    for (i = 0; i < n; i++) { (*p)[i] = i * i; (*q)[1][i] = x[i] + 1; }
    printf("%d %d %d %d %d\n", sum(n, &x), sum(n, &y[1]), (int)sizeof *&x, (int)sizeof **q, y[1][3]);
    return 0;
}
/* writes
14 18 16 16 10
status 0 */
