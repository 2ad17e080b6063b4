#include <stdio.h>
#include <stdlib.h>
#include <string.h>
struct item { int key, never; struct item *next; };
static int calls;
static int asked(struct item *p, int n)
{
    calls++;
    return p->key - n;
}
static int counted(struct item *p, char *text)
{
    int i, n = 0, few[4] = { 3, 1, 2, 0 };
    if (p && p->key > 1)
        n += 1;
    if (!p || p->key)
        n += 2;
    while (p && p->next && p->next->key != 9)
        p = p->next;
    for (i = 0; i < 4 && few[i]; few[i]--, i++)
        n += few[i] == 3 ? few[i + 1] : 0;
    do
        n += 100;
    while (*text++ == 'a');
    while (*--text != 'a' && n < 400)
        n += 50;
    if (few[0]++ == 2 && few[few[1]] && (few[0] = few[1]) == 0)
        n += 1000;
    if (p && 0 && p->never)
        abort();
    switch (few[2]) {
    case 1:
        n += 5000;
    }
    if (strlen(text) == 3 && p && asked(p, few[0]) && calls == 1)
        n += 10000;
    return n;
}
int main(void)
{
    struct item *last = malloc(sizeof *last), *first = malloc(sizeof *first);
    char text[5] = "aabb";
    last->key = 9;
    last->next = NULL;
    first->key = 5;
    first->next = last;
    printf("%d", counted(first, text));
    printf(" %d %d\n", counted(NULL, text + 1) + 0 * calls, calls);
    return 0;
}
/* seen by cells p->key; p->next->key; few[i]; *text++; *--text; few[0]; few[few[1]]; few[1]; p->never; last->key; first->key */
/* seen by bytes p->key; p->next->key; few[i]; *text++; *--text; few[0]; few[few[1]]; few[1]; p->never; last->key; first->key */
/* writes
16354 6253 1
status 0 */
