#define _GNU_SOURCE
#include <stdio.h>
#include <string.h>

static int row[4] = { 1, 2, 3, 4 };
static char text[8];

/* memory of one kind, whose end is handed on */
static char *join(char *to, void *from, size_t n)
{
    return mempcpy(to, from, n);
}

int main(void)
{
    int other[4];
    int *end = mempcpy(other, row, sizeof row);
    char *behind = join(text, "abc", 3);
    *behind++ = 'd';
    *behind = 0;
    printf("%d %d %s\n", (int)(end - other), other[3], text);
    return 0;
}
/* memory bytes */
/* writes
4 4 abcd
status 0 */
