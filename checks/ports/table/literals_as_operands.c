#include <stdio.h>
struct p { int x, y; };
struct outer { struct inner { struct innermost { int i; } c; } b; } a;
struct none { };
union u { int i; char *s; };
int f(union u v) { return v.i; }
int main(void)
{
    int n = 0;
    int *q = &(int []){ 5, 6, 7 }[++n];
    struct p r = (struct p){ y: 4, x: 3 };
    printf("%d %d %d %d\n", n, *q, r.x, r.y);
    a.b.c.i = 9;
    a.b = (struct inner){};
    printf("%d %d\n", a.b.c.i, (struct p){ 1, 2 }.y);
    printf("%d %d\n", (int)sizeof(struct p){}, (int)sizeof(struct none));
    printf("%d\n", f((union u)12));
    return (int []){ 3, 2, 1 }[2] - 1;
}
/* writes
1 6 3 4
0 2
8 0
12
status 0 */
