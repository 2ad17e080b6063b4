#include <stdio.h>
#include <stdlib.h>
#include <string.h>
struct row { int id, weight; };
struct node { void *data; struct node *next; };
static struct node *push(struct node *list, void *data)
{
    struct node *made = malloc(sizeof *made);
    if (made == NULL)
        exit(2);
    made->data = data;
    made->next = list;
    return made;
}
static void each(struct node *list, void (*call)(void *))
{
    for (; list; list = list->next)
        call(list->data);
}
static void write_text(void *data)
{
    char *text = data;
    while (*text)
        putchar(*text++);
    putchar('\n');
}
static void write_row(void *data)
{
    struct row *row = data;
    printf("%d %d\n", row->id, row->weight);
}
struct table { const void *keys[8]; unsigned (*hash)(const void *); int (*same)(const void *, const void *); };
static unsigned hash_text(const void *key)
{
    const char *text = key;
    unsigned h = 0;
    while (*text)
        h = 31 * h + (unsigned char)*text++;
    return h;
}
static int same_text(const void *left, const void *right) { return strcmp(left, right) == 0; }
static unsigned hash_number(const void *key) { return *(const int *)key; }
static int same_number(const void *left, const void *right) { return *(const int *)left == *(const int *)right; }
static int put(struct table *table, const void *key)
{
    unsigned at = table->hash(key) % 8;
    while (table->keys[at] && !table->same(table->keys[at], key))
        at = (at + 1) % 8;
    table->keys[at] = key;
    return at;
}
static void show(int kind, const void *at)
{
    if (kind == 's')
        puts((const char *)at);
    else if (kind == 'd')
        printf("%d\n", *(const int *)at);
    else
        printf("%d\n", ((const struct row *)at)->weight);
}
static int handed_on(const void *at)
{
    const struct row *row = at;
    return row->id;
}
int main(void)
{
    static struct table texts = { { 0 }, hash_text, same_text }, numbers = { { 0 }, hash_number, same_number };
    struct node *words = NULL, *rows = NULL;
    struct row first = { 1, 300 }, second = { 2, 400 };
    char word[] = "plums";
    int one = 300, other = 308;
    words = push(push(words, "apples"), word);
    rows = push(push(rows, &first), &second);
    each(words, write_text);
    each(rows, write_row);
    printf("%c %d\n", ((char *)words->data)[1], ((struct row *)rows->data)->id);
    printf("%d ", put(&texts, "one"));
    printf("%d ", put(&texts, "two"));
    printf("%d ", put(&numbers, &one));
    printf("%d\n", put(&numbers, &other));
    show('s', "text");
    show('d', &one);
    show('r', &second);
    if (handed_on(&first) == 1 && (char *)rows->data != (char *)words->data)
        puts("handed on");
    return 0;
}
/* memory cells */
/* writes
plums
apples
2 400
1 300
l 2
6 4 4 5
text
300
400
handed on
status 0 */
