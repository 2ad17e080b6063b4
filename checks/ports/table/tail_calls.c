/* A function that calls itself last begins again in place of the call, so that it may do so more than 512 times. */
#include <stdio.h>
struct node { int n; struct node *next; };
static int sum(int n, int step, long so_far)
{
    int next;
    if (n <= 0)
        return (int)so_far;
    next = n - step;
    return sum(next, step, so_far + n);
}
static const struct node *last(const struct node *list) { if (!list->next) return list; return last(list->next); }
static void swapped(unsigned char n, const char *one, const char *other)
{
    if (n == 0) {
        printf("%s %s\n", one, other);
        return;
    }
    switch (n % 3) {
    case 0:
        swapped(n - 1, other, one);
        return;
    case 1:
        if (n > 200) {
            swapped(n - 1, one, other);
            return;
        }
        break;
    default:
        ;
    }
    swapped(n - 1, other, one);
}
static unsigned long steps(unsigned long n, int *count, int most)
{
    unsigned long half = n / 2;
    if (n == 1 || *count >= most)
        return n;
    switch (n % 2) {
    case 0:
        ++*count;
        return steps(half, count, most);
    default:
        ++*count;
    case 2:
        return steps(3 * n + 1, count, most);
    }
}
static int in_a_loop(int n)
{
    while (n > 0) {
        n -= 3;
        if (n == 90)
            return in_a_loop(n - 1);
    }
    return n;
}
static int many(int a, int b, int c, int d) { if (a == 0) return 1000 * b + 100 * c + 10 * d; return many(a - 1, c, d, b); }
static int by_address(int depth, int *outer)
{
    int mine = depth;
    if (depth == 0)
        return *outer;
    return by_address(depth - 1, depth == 3 ? &mine : outer);
}
int main(void)
{
    static struct node nodes[2000];
    int count = 0, i, none = -1;
    for (i = 0; i < 2000; i++) {
        nodes[i].n = i;
        nodes[i].next = i < 1999 ? nodes + i + 1 : NULL;
    }
    printf("%d %d\n", sum(5000, 1, 0), last(nodes)->n);
    swapped(255, "a", "b");
    printf("%lu ", steps(837799, &count, 1000));
    printf("%d\n", count);
    printf("%d %d %d\n", in_a_loop(102), many(7, 1, 2, 3), by_address(5, &none));
    return 0;
}
/* writes
12502500 1999
b a
1 524
-1 2310 3
status 0 */
