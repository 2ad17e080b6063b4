#include <stdio.h>
#include <stdlib.h>
#include <string.h>
struct buffer { char *data; size_t used, room; };
struct key { const void *at; size_t length; };
struct row { int id, weight; };
static void append(struct buffer *to, const void *from, size_t count)
{
    if (to->used + count + 1 > to->room) {
        void *more = realloc(to->data, 2 * (to->used + count + 1));
        if (more == NULL)
            exit(2);
        to->data = more;
        to->room = 2 * (to->used + count + 1);
    }
    memcpy(to->data + to->used, from, count);
    to->used += count;
    to->data[to->used] = 0;
}
static int same(struct key left, struct key right)
{
    return left.length == right.length && memcmp(left.at, right.at, left.length) == 0;
}
static void copy_rows(void *to, const void *from, int count)
{
    memcpy(to, from, count * sizeof(struct row));
}
static int by_weight(const void *left, const void *right)
{
    return ((const struct row *)left)->weight - ((const struct row *)right)->weight;
}
static void *shifted(void *at, int by)
{
    char *text = at;
    return text + by;
}
int main(void)
{
    static struct row rows[3] = { { 1, 30 }, { 2, 10 }, { 3, 20 } };
    struct row other[3];
    struct buffer text = { NULL, 0, 0 };
    struct key one, two;
    char word[] = "-pears";
    int i;
    append(&text, "apples", 6);
    append(&text, word + 1, 5);
    one.at = text.data + 6;
    one.length = 5;
    two.at = shifted(word, 1);
    two.length = 5;
    printf("%s %d\n", text.data, same(one, two));
    qsort(rows, 3, sizeof rows[0], by_weight);
    copy_rows(other, rows, 3);
    for (i = 0; i < 3; i++)
        printf("%d %d\n", other[i].id, other[i].weight);
    free(text.data);
    return 0;
}
/* memory cells */
/* writes
applespears 1
2 10
3 20
1 30
status 0 */
