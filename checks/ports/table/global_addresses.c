#include <stdlib.h>
int a[5] = { 1, 2, 3, 4, 5 };
int *p = &a[2], *q = a + 1, **pp = &p;
struct n { int v; struct n *next; } first, second = { 2, &first }, first = { 1, &second };
struct t { const char *name; int *place; struct n *node; int (*f)(int); };
static int neg(int n) { return -n; }
struct t table[] = { { "a", a, &first, neg }, { "b", &a[4], &second, 0 } };
const char *const words[] = { "x", "yy", 0 };
char *letters = "abc" + 1;
int diff = sizeof a / sizeof a[0] * 2 - 1;
long big = 0x7fffffff; unsigned neg_one = -1; short wrap = 70000; unsigned char uc = 300;
int least = -2147483647 - 1;
char text[10] = "hi", exact[2] = "hi";
int main(void)
{
    if (*p != 3 || *q != 2 || **pp != 3 || first.next->v != 2 || second.next->next != &second) abort();
    if (*table[1].place != 5 || table[0].f(4) != -4 || table[1].f || table[0].node->v != 1 || words[1][1] != 'y' || words[2]) abort();
    if (*letters != 'b' || diff != 9 || big != 2147483647 || neg_one != 4294967295u || wrap != 4464 || uc != 44 || least >= 0 || text[2] || exact[1] != 'i') abort();
    return 0;
}
