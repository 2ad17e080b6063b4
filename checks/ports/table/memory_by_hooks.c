#include <stdio.h>
#include <stdlib.h>
#include <string.h>
struct node { int value; struct node *next; };
struct hooks { void *(*allocate)(size_t n); void (*release)(void *p); void *(*grow)(void *p, size_t n); };
static int made;
static void *counted(size_t n) { void *p = malloc(n); if (p != NULL) made++; return p; }
static struct hooks hooks = { malloc, free, realloc };
static void *(*cleared)(size_t count, size_t size) = calloc;
static struct node *push(struct node *list, int value)
{
    struct node *it = hooks.allocate(sizeof *it);
    if (it == NULL)
        exit(2);
    it->value = value;
    it->next = list;
    return it;
}
static void drop(struct node *list)
{
    while (list != NULL) {
        struct node *next = list->next;
        hooks.release(list);
        list = next;
    }
}
int main(void)
{
    struct node *list = NULL, *it;
    int i, count = 0, *all = NULL, *zeros = cleared(5, sizeof *zeros);
    char *text;
    for (i = 0; i < 4; i++)
        list = push(list, i * i);
    if (hooks.allocate == malloc)
        puts("plain");
    hooks.allocate = counted;
    for (i = 0; i < 3; i++)
        list = push(list, -i);
    for (it = list; it != NULL; it = it->next) {
        all = (int *)hooks.grow(all, sizeof(int) * (count + 1));
        all[count++] = it->value + zeros[count % 5];
    }
    for (i = 0; i < count; i++)
        printf("%d ", all[i]);
    text = (char *)hooks.allocate(strlen("some text") + 1);
    strcpy(text, "some text");
    printf("%s %d\n", text, made);
    hooks.release(text);
    hooks.release(all);
    hooks.release(zeros);
    drop(list);
    return 0;
}
/* memory cells */
/* writes
plain
-2 -1 0 9 4 1 0 some text 4
status 0 */
