#include <stdio.h>
#include <stdlib.h>
struct list { struct list *next; int n; };
struct node {
    int kind;
    union {
        struct { int ntxns; int maxn; int *array; } l;
        struct { struct list *first; char name[8]; int flags : 3; } d;
        struct { int sum; struct { int a, b; } in; } t;
    } u;
};
int total(struct node *at)
{
    int s = 0, i;
    struct list *p;
    if (at->kind == 0)
        for (i = 0; i < at->u.l.ntxns; i++)
            s += at->u.l.array[i];
    else if (at->kind == 1)
        for (p = at->u.d.first; p; p = p->next)
            s += p->n + at->u.d.flags;
    else
        s = at->u.t.sum + at->u.t.in.a - at->u.t.in.b;
    return s;
}
int main(void)
{
    int numbers[3] = { 1, 2, 3 };
    struct list two = { 0, 20 }, one = { &two, 10 };
    struct node a = { 0 }, b, c, copy;
    a.u.l.ntxns = 3;
    a.u.l.array = numbers;
    b.kind = 1;
    b.u.d.first = &one;
    b.u.d.flags = 2;
    c.kind = 2;
    c.u.t.sum = 5;
    c.u.t.in.a = 7;
    c.u.t.in.b = 1;
    c.u.t.sum += 4;
    c.u.t.in.a++;
    copy = a;
    printf("%d %d %d %d\n", total(&a), total(&b), total(&c), total(&copy));
    return 0;
}
/* writes
6 34 16 6
status 0 */
