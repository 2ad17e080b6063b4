#include <stdio.h>
struct piece { const void *at; int count; };
struct way { int (*sum)(const void *, int); const char *name; };
static int plain(const void *at, int count)
{
    const unsigned char *byte = at;
    int sum = 0;
    while (count-- > 0)
        sum += *byte++;
    return sum;
}
static int turned(const void *at, int count)
{
    int sum = 0;
    for (int i = 0; i < count; i++)
        sum = 2 * sum + *((const signed char *)at + i);
    return sum;
}
static const struct way ways[2] = { { plain, "plain" }, { turned, "turned" } };
static int last(struct piece piece)
{
    return ((const char *)piece.at)[piece.count - 1];
}
int main(void)
{
    int number = 0x01020304;
    short row[2] = { 258, -2 };
    struct piece pieces[2] = { { &number, sizeof number }, { row, sizeof row } };
    for (int i = 0; i < 2; i++)
        for (int way = 0; way < 2; way++)
            printf("%s %d\n", ways[way].name, ways[way].sum(pieces[i].at, pieces[i].count));
    printf("%d %d\n", last(pieces[0]), last(pieces[1]));
    return 0;
}
/* memory bytes */
/* writes
plain 10
turned 49
plain 512
turned 15
1 -1
status 0 */
