#include <stdio.h>
int c[] = (int []) { [2] = 6, 7, 8 };
int d[] = (int [3]) { 1 };
struct in { int i; } g[3] = { [2] = (struct in) { 13 }, [1] = (const struct in) { 12 } };
enum great { none, all = 0xffffffffffffffffULL };
enum deep { low = -5000000000LL, high = 1 };
struct huge { char room[2000][2000]; };
void é(void) { printf("%d %d\n", (int)sizeof __func__, __func__[0] & 255); }
int main(void)
{
    enum deep e = low;
    struct huge *p = 0;
    printf("%d %d %d %d\n", (int)sizeof c, c[4], (int)sizeof d, d[0] + d[1] + d[2]);
    printf("%d %d %d\n", g[0].i, g[1].i, g[2].i);
    printf("%d %d %llu %lld\n", (int)sizeof(enum great), (int)sizeof e, (unsigned long long)all, (long long)e);
    printf("%d %d\n", (int)sizeof *p, p != 0);
    é();
    return 0;
}
/* writes
20 8 12 1
0 12 13
8 8 18446744073709551615 -5000000000
4000000 0
3 195
status 0 */
