#include <stdio.h>
#include <stdlib.h>
#include <string.h>
struct node { int n; struct node *next; };
static char *get(unsigned size)
{
    char *p;
    if ((p = (char *)malloc(size)) == NULL) {
        puts("no memory");
        exit(1);
    } else
        return p;
}
static char *copy(const char *text) { return strcpy(get(strlen(text) + 1), text); }
static char *stars(int count)
{
    char *p = get(count + 1);
    memset(p, '*', count);
    p[count] = 0;
    return p;
}
int main(void)
{
    struct node *list = NULL;
    int i, *all = (int *)get(3 * sizeof(int));
    char **words = (char **)get(2 * sizeof(char *));
    words[0] = copy("one");
    words[1] = stars(4);
    for (i = 0; i < 3; i++) {
        struct node *it = (struct node *)get(sizeof *it);
        it->n = all[i] = i * i;
        it->next = list;
        list = it;
    }
    for (; list != NULL; list = list->next)
        printf("%d ", list->n + all[1]);
    puts(words[0]);
    puts(words[1]);
    return all[3];
}
/* memory cells */
/* writes
5 2 1 one
****
trap 6 */
