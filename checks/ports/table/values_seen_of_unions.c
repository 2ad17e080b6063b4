#include <stdio.h>
enum kind { NUMBER, PAIR };
struct value { enum kind kind; union { int number; struct { int left, right; } pair; } as; };
union bytes { unsigned whole; unsigned char each[4]; };
static int of(struct value *v)
{
    if (v->kind == NUMBER && v->as.number > 2)
        return v->as.number--;
    if (v->kind == PAIR && v->as.pair.left < v->as.pair.right)
        v->as.pair.left += 10;
    return v->as.pair.left;
}
int main(void)
{
    struct value n, p;
    n.kind = NUMBER;
    n.as.number = 3;
    p.kind = PAIR;
    p.as.pair.left = 4;
    p.as.pair.right = 5;
    printf("%d", of(&n));
    printf(" %d", n.as.number);
    printf(" %d\n", of(&p));
    return 0;
}
/* seen by cells v->kind; n.kind; p.kind */
/* seen by bytes v->kind; v->as.number; v->as.pair.left; v->as.pair.right; n.kind; n.as.number; p.kind; p.as.pair.left; p.as.pair.right */
/* writes
3 2 14
status 0 */
