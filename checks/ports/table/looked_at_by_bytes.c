#include <stdio.h>
#include <string.h>
struct record { int id; short size; char tag[2]; };
static void dump(void *p, int n)
{
    for (int i = 0; i < n; i++)
        printf("%02x", ((unsigned char *)p)[i]);
    putchar('\n');
}
static void show(const void *at, unsigned count)
{
    const unsigned char *byte = at, *end = byte + count;
    for (; byte != end; byte++)
        printf("%d%c", *byte, byte + 1 == end ? '\n' : ' ');
}
static void clear(void *at, int from, int to)
{
    while (from < to)
        *((char *)at + from++) = 0;
}
int main(void)
{
    struct record one = { 258, 3, "x" };
    int number = 67305985, row[2] = { 1, 256 };
    void *any = &row[1];
    dump(&one, sizeof one);
    dump(&number, sizeof number);
    dump(row, sizeof row);
    show(&one.size, sizeof one.size);
    show("word", strlen("word"));
    clear(&number, 1, 3);
    printf("%d %d %d\n", number, *(signed char *)any, ((signed char *)any)[1]);
    return 0;
}
/* memory bytes */
/* writes
0201000003007800
01020304
0100000000010000
3 0
119 111 114 100
67108865 0 1
status 0 */
