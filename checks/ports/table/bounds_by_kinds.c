#include <stdio.h>
#include <stdlib.h>
struct pair { int left, right; };
struct list { void *at; int count; };
static int sum(const struct list *list)
{
    const struct pair *p = list->at;
    int i, s = 0;
    for (i = 0; i <= list->count; i++)
        s += p[i].left;
    return s;
}
int main(void)
{
    struct list list;
    void *memory;
    int i;
    if ((memory = malloc(3 * sizeof(struct pair))) == NULL)
        return 2;
    list.at = memory;
    list.count = 3;
    for (i = 0; i < 3; i++)
        ((struct pair *)list.at)[i].left = i;
    puts("made");
    return sum(&list);
}
/* memory cells */
/* writes
made
trap 6 */
