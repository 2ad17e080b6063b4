#include <stdio.h>
int a[][2][4] = { [2 ... 4][0 ... 1][2 ... 3] = 1, [2] = 2, [2][0][2] = 3 };
struct in { int j; int k[3]; int l; };
struct out { int n; struct in o[3]; int p; };
struct out n[] = { [0 ... 2].o[1 ... 2].k[0 ... 1] = 4, 5, 6, 7 };
int q[3][3] = { [0 ... 1] = { [1 ... 2] = 23 }, [1][2] = 24 };
int main(void)
{
    int local[6] = { [1 ... 3] = 9, 8 }, i;
    printf("%d %d %d %d %d\n", a[2][0][0], a[2][0][2], a[3][1][3], a[4][0][2], a[2][1][3]);
    for (i = 0; i < 3; i++)
        printf("%d %d %d %d %d %d|", n[i].o[0].k[0], n[i].o[1].k[1], n[i].o[2].k[0], n[i].o[2].k[2], n[i].o[2].l, n[i].p);
    printf("\n%d %d %d %d\n", q[0][1], q[1][1], q[1][2], q[2][2]);
    for (i = 0; i < 6; i++)
        printf("%d ", local[i]);
    printf("%d %d\n", (int)(sizeof a / sizeof *a), (int)(sizeof n / sizeof *n));
    return 0;
}
/* writes
2 3 1 1 1
0 4 4 0 0 0|0 4 4 0 0 0|0 4 4 5 6 7|
23 23 24 0
0 9 9 9 8 0 5 3
status 0 */
