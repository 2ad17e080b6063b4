#include <stdio.h>
union bytes { unsigned whole; unsigned char each[4]; };
static union bytes u;
static int count;
static void add(int *to, int more)
{
    *to += more;
    if (*to > 4)
        to[0]--;
}
int main(void)
{
    int n = 2;
    u.whole = 0x01020384u;
    if (u.each[0] == 0x84 && u.each[3]++ == 1 && u.whole >> 24 == 2)
        count++;
    while (count < 3)
        add(&count, 1);
    add(&n, 3);
    printf("%d %d %u\n", count, n, u.whole);
    return 0;
}
/* memory bytes */
/* seen by bytes *to; to[0]; u.whole; u.each[0]; count */
/* writes
3 4 33686404
status 0 */
