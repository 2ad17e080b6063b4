#include <stdlib.h>
struct p { int x, y; };
int sum(const int *a, int n) { int s = 0; while (n--) s += *a++; return s; }
int area(struct p p) { return p.x * p.y; }
struct p *global = &(struct p){ 3, 4 };
int *list = (int[]){ 1, 2, 3 };
int main(void)
{
    struct p a = (struct p){ .y = 5 };
    if (a.x || a.y != 5 || sum((int[]){ 4, 5, 6 }, 3) != 15 || area((struct p){ 3, 4 }) != 12) abort();
    a = (struct p){ a.y, 2 };
    if (a.x != 5 || a.y != 2 || global->y != 4 || list[2] != 3) abort();
    if ((&(struct p){ 8, 9 })->y != 9 || *(int *)&(int){ 7 } != 7) abort();
    return 0;
}
