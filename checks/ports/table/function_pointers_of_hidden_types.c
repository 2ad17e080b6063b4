#include <stdio.h>
#include <stdlib.h>
struct hidden;
typedef int (*operation)(struct hidden *left, struct hidden *right, struct hidden **result);
struct number { int value; };
static int add(struct number *left, struct number *right, struct number **result)
{
    *result = malloc(sizeof **result);
    (*result)->value = left->value + right->value;
    return 0;
}
static int one(int (*op)(), void *left, void *right, void **result) { return op(left, right, result); }
int main(void)
{
    struct number a = { 3 }, b = { 4 }, *c = NULL, *d = NULL;
    operation op = (operation)add;
    int status = op((struct hidden *)&a, (struct hidden *)&b, (struct hidden **)(void *)&c);
    printf("%d %d\n", status, c->value);
    status = one(add, &a, c, (void **)&d);
    printf("%d %d\n", status, d->value);
    free(c);
    free(d);
    return 0;
}
/* memory cells */
/* writes
0 7
0 10
status 0 */
