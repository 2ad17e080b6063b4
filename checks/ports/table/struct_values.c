#include <stdlib.h>
struct in { short a; char b[3]; };
struct big { int n; struct in i[2]; struct big *next; };
struct big make(int n) { struct big b = { n, { { n + 1, "ab" }, { n + 2, { 'x' } } }, 0 }; return b; }
struct big twice(struct big b) { b.n *= 2; b.i[1].a = 7; return b; }
int sum(struct big a, struct big b) { return a.n + b.n + a.i[0].a + b.i[1].a; }
struct in second(struct big *p) { return p->i[1]; }
int main(void)
{
    struct big a = make(3), b, c[2];
    b = twice(a);
    if (a.n != 3 || b.n != 6 || a.i[1].a != 5 || b.i[1].a != 7 || b.i[0].b[1] != 'b') abort();
    c[1] = c[0] = b;
    c[1].n++;
    if (c[0].n != 6 || c[1].n != 7) abort();
    if (sum(make(1), twice(make(2))) != 1 + 4 + 2 + 7) abort();
    if (make(9).i[0].a != 10 || second(&a).b[0] != 'x' || twice(twice(a)).n != 12) abort();
    b.next = &c[0];
    *b.next = a;
    if (c[0].n != 3) abort();
    a = a.n ? b : c[1];
    if (a.n != 6) abort();
    return 0;
}
