#include <stdio.h>
#include <setjmp.h>
struct state { int depth, most; };
static jmp_buf out;
static int deeper(struct state *s, int n)
{
    s->depth++;
    if (s->depth > s->most)
        longjmp(out, s->depth);
    return n ? deeper(s, n - 1) + s->depth : s->most;
}
static int rounds(struct state *s)
{
    int n = 0;
again:
    if (s->depth-- > 2) {
        int few[2] = { 1, 2 };
        few[1] += s->depth;
        if (few[1] == 4)
            goto done;
        n += few[1];
        goto again;
    }
    n += 100;
done:
    return n;
}
int main(void)
{
    struct state s = { 0, 4 };
    int left = setjmp(out);
    if (left)
        printf("%d %d\n", left, s.depth);
    else
        printf("%d\n", deeper(&s, 9));
    printf("%d", rounds(&s));
    printf(" %d\n", s.depth);
    return 0;
}
/* seen by cells s->depth; s->most; few[1]; s.depth */
/* seen by bytes s->depth; s->most; few[1] */
/* writes
5 5
11 2
status 0 */
