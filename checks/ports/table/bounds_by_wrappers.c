#include <stdio.h>
#include <stdlib.h>
struct pair { int left, right; };
void *xmalloc(size_t n) { void *p = malloc(n); if (p == NULL) abort(); return p; }
static int sum(const struct pair *p, int count)
{
    int i, s = 0;
    for (i = 0; i <= count; i++)
        s += p[i].left;
    return s;
}
int main(void)
{
    struct pair *all = xmalloc(3 * sizeof *all);
    int i, *more = xmalloc(sizeof(int) * 100);
    for (i = 0; i < 3; i++)
        all[i].left = more[i] = i;
    puts("made");
    return sum(all, 3);
}
/* memory cells */
/* writes
made
trap 6 */
