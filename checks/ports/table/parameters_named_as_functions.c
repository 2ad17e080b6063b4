#include <stdio.h>
/* A parameter may have the name of its function, which it hides (C99 6.2.1p4). */
int sum(int a, int sum) { return a + sum; }
static int twice(int n, int (*twice)(int)) { return twice(twice(n)); }
static int next(int n) { return n + 1; }
static int *at(int *at) { return at + 1; }
int main(void)
{
    int row[2] = { 7, 8 };
    printf("%d %d %d\n", sum(2, 3), twice(4, next), *at(row));
    return 0;
}
/* writes
5 6 8
status 0 */
