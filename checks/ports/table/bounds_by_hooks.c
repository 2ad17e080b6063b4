#include <stdio.h>
#include <stdlib.h>
struct pair { int left, right; };
static void *(*allocate)(size_t n) = malloc;
static void (*release)(void *p) = free;
static int sum(const struct pair *p, int count)
{
    int i, s = 0;
    for (i = 0; i <= count; i++)
        s += p[i].left;
    return s;
}
int main(void)
{
    struct pair *all = allocate(3 * sizeof *all);
    int i, s;
    for (i = 0; i < 3; i++)
        all[i].left = i;
    puts("made");
    s = sum(all, 3);
    release(all);
    return s;
}
/* memory cells */
/* writes
made
trap 6 */
