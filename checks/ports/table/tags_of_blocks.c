#include <stdio.h>
struct node { char tag; int n; };
struct pair { int a, b; };
int sum(struct pair p) { return p.a + p.b; }
int main(void)
{
    struct node outer = { 'a', 7 };
    struct pair p = { 3, 4 };
    struct node;
    struct list { struct node *first; struct list *next; } l;
    struct node { unsigned char n; char tag; } x;
    l.first = &x;
    l.first->n = 44;
    l.first->tag = 5;
    printf("%d %d %d\n", x.n, l.first->tag, (int)sizeof *l.first);
    printf("%c %d %d\n", outer.tag, outer.n, (int)sizeof outer);
    {
        struct node { int deep[3]; } y = { { 1, 2, 3 } };
        struct pair;
        struct holds { struct pair *p; } h;
        struct pair { long long wide; } q = { 1LL << 40 };
        h.p = &q;
        printf("%d %d %d\n", y.deep[2], (int)(h.p->wide >> 38), (int)sizeof(struct pair));
    }
    {
        struct pair;
        struct u { struct pair *p; } none;
        none.p = 0;
        printf("%d\n", none.p == 0);
    }
    printf("%d %d\n", sum(p), (int)sizeof(struct pair));
    return 0;
}
/* writes
44 5 2
a 7 8
3 4 8
1
7 8
status 0 */
