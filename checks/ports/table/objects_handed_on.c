#include <stdio.h>
#include <stdlib.h>
#include <string.h>
struct row { int id; short size; };
static int id_of(const void *at)
{
    const struct row *row = at;
    return row->id;
}
static void twin(void *to, const void *from)
{
    memcpy(to, from, sizeof(struct row));
}
static int again(void *at, const void *other)
{
    if ((char *)at == NULL || (const char *)at == (const char *)other)
        return 0;
    return id_of((char *)at);
}
static void drop(void *at)
{
    free((char *)at);
}
int main(void)
{
    struct row first = { 7, 8 }, *second = malloc(sizeof *second);
    char word[] = "pears";
    if (second == NULL)
        return 2;
    twin(second, &first);
    printf("%d %d %d %d\n", again(second, &first), again(&first, word), again(&first, &first), second->size);
    drop(second);
    return 0;
}
/* memory cells */
/* writes
7 7 0 8
status 0 */
