#include <stdio.h>
#include <string.h>
struct row { short id; char tag[2]; int weight; };
static unsigned sum(const void *at, int count)
{
    const unsigned char *byte = at;
    unsigned s = 0;
    while (count-- > 0)
        s = 3 * s + *byte++;
    return s;
}
static void put(void *to, const void *from, unsigned count)
{
    memcpy(to, from, count);
}
static void *behind(void *at, int count)
{
    char *byte = at;
    return byte + count;
}
int main(void)
{
    struct row row = { 258, { 'a', 'b' }, 1 }, two;
    int n = 0;
    char text[4];
    put(&two, &row, sizeof two);
    put(text, &two.weight, 1);
    put(&n, behind(&row, 2), 2);
    printf("%u %d %d\n", sum(&two, sizeof two), text[0], n);
    return 0;
}
/* memory bytes */
/* writes
36639 1 25185
status 0 */
