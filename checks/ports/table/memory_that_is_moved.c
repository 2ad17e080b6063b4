#include <stdio.h>
#include <stdlib.h>
/* What does more with the memory than hand it on has no copies: the first one gives what is behind a head, and the second one keeps it. */
struct head { unsigned size, seen; };
void *with_head(size_t n) { void *p = malloc(sizeof(struct head) + n); ((struct head *) p)->size = n; return (char *) p + sizeof(struct head); }
static void *last;
void *kept(size_t n) { last = malloc(n); return last; }
int main(void)
{
    int *p = with_head(3 * sizeof(int)), *q = kept(2 * sizeof(int));
    p[2] = 5;
    q[1] = 6;
    printf("%d %u %d\n", p[2], ((struct head *) p - 1)->size, ((int *) last)[1]);
    return 0;
}
/* memory bytes */
/* writes
5 12 6
status 0 */
